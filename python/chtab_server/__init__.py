"""The service of networks over HTTP, for the page and for programs. docs/SERVICE.md describes its
requests and answers.

| module | what it holds |
|---|---|
| `service` | the answers to requests |
| `serving` | the processes of the service, and listening |
| `networks` | networks and their files |
| `stored`, `mapped` | what is made of these files and kept in columns |
| `speeds`, `weighing` | speeds of a file, and networks with these |
| `queue` | the order in which requests are answered |
| `requests` | requests in JSON, and their limits |
| `faults` | the answers to requests that can't be answered |
| `connections` | clients and their connections |
| `web_policy` | headers for browsers |
| `recording`, `metrics` | the access log, and the counts |
| `tiles` | the roads as a map |
| `osrm` | OSRM's interface |
"""
