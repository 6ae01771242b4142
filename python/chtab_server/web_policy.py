"""The headers for browsers: what a page may load and run, which addresses browsers may pass on, and
which pages of other sites may ask (CORS, by the Fetch standard of WHATWG).
"""
from __future__ import annotations

import re
from collections.abc import Callable, Collection, Mapping

from aiohttp import web

from chtab.errors import ChtabError

# What the header Server says: no version, which would tell what else is known of it.
SOFTWARE = "chtab"
# An address with a scheme or a server, and the server of an address that a policy can name.
ABSOLUTE = re.compile(r"[a-z][a-z0-9+.-]*:|//", re.IGNORECASE)
SERVER = re.compile(r"(https?://[a-z0-9.-]+(?::[0-9]+)?)/", re.IGNORECASE)
# The letters that Leaflet puts in the place of `{s}`.
LETTERS = "abc"
# The paths of OSRM's interface: its services, and whatever else has the same form.
FORM = r"(?:route|table|nearest|match|trip|tile)(?:/.*)?|\w+/v\d+/.*"
OSRM, IS_OSRM = f"/{{words:{FORM}}}", re.compile(f"/(?:{FORM})", re.DOTALL)
# Browsers ask for the page's files each time, because files of two versions don't fit together.
CACHING = "Cache-Control", "no-cache"
# What the paths of requests to services of OSRM begin with, each of which has the form above.
QUICK = "/route/", "/table/", "/nearest/", "/match/", "/trip/"
# The paths that pages of other sites may ask for, and the seconds for which browsers remember this.
OPEN_TO_OTHERS = ("/api/", "/health", "/roads/")
REMEMBERED = 86_400


def tile_sources(tiles: str | None) -> list[str]:
    """The servers of a layer of map tiles, as a policy names them; none if there is no layer, or if
    it is the service's own. Raises a `ChtabError` for an address without a server."""
    if tiles is None or not ABSOLUTE.match(tiles):
        return []
    addresses = [tiles.replace("{s}", letter) for letter in LETTERS] if "{s}" in tiles else [tiles]
    found = [SERVER.match(address) for address in addresses]
    if None in found:
        raise ChtabError(
            f"{tiles} is not the address of map tiles, as "
            f"https://tile.example.org/{{z}}/{{x}}/{{y}}.png")
    return [server[1] for server in found if server]


def headers(tiles: str | None) -> dict[str, str]:
    """The headers of each answer, for a page with this layer of map tiles or None. Only scripts
    that are served as files run."""
    images = " ".join(["'self'", "data:", *tile_sources(tiles)])
    policy = {
        "default-src": "'none'", "script-src": "'self'", "style-src": "'self'", "img-src": images,
        "connect-src": "'self'", "base-uri": "'none'", "form-action": "'none'",
        "frame-ancestors": "'none'"}
    return {
        "Content-Security-Policy": "; ".join(f"{name} {value}" for name, value in policy.items()),
        "X-Content-Type-Options": "nosniff",
        # Servers of map tiles refuse requests without the name of the site.
        "Referrer-Policy": "no-referrer" if tiles is None else "strict-origin",
        "Server": SOFTWARE,
    }


def add_headers(response: web.StreamResponse, added: Mapping[str, str]) -> None:
    """Adds headers to an answer before it is sent."""
    response.headers.update(added)
    response.headers.setdefault(*CACHING)


# Pages of other sites.


def is_osrm(path: str) -> bool:
    return bool(IS_OSRM.fullmatch(path))


def is_open(request: web.BaseRequest) -> bool:
    return request.path.startswith(OPEN_TO_OTHERS) or is_osrm(request.path)


def allower(
    origins: Collection[str],
) -> Callable[[web.BaseRequest, web.StreamResponse], None] | None:
    """A function of a request and its answer, which allows the answer for one of these origins; `*`
    stands for all. None if there are no origins."""
    def allow(request: web.BaseRequest, response: web.StreamResponse) -> None:
        if not is_open(request):
            return
        origin = request.headers.get("Origin")
        if "*" in origins:
            response.headers["Access-Control-Allow-Origin"] = "*"
        else:
            response.headers.add("Vary", "Origin")
            if origin is not None and origin in origins:
                response.headers["Access-Control-Allow-Origin"] = origin

    return allow if origins else None


def is_preflight(request: web.BaseRequest) -> bool:
    """Whether a browser asks which requests a page of another site may send."""
    return request.method == "OPTIONS" and is_open(request)


def preflight(request: web.BaseRequest) -> web.Response:
    """The answer to such a request."""
    return web.Response(
        status=204,
        headers={
            "Access-Control-Allow-Methods": "GET, POST",
            "Access-Control-Allow-Headers": "Content-Type",
            "Access-Control-Max-Age": str(REMEMBERED)})
