// What a page shows, measured: how its texts and lines stand out from what is behind them (WCAG 2.2, relative luminance), and whose they are.

const colour = text => {
  const parts = text.match(/[\d.]+/g)?.map(Number) ?? [0, 0, 0, 0];
  return [...parts.slice(0, 3), parts.length > 3 ? parts[3] : 1];
};
const over = (front, back) => [0, 1, 2].map(part => front[part] * front[3] + back[part] * (1 - front[3])).concat(1);
const linear = part => (part / 255 <= .04045 ? part / 255 / 12.92 : ((part / 255 + .055) / 1.055) ** 2.4);
const luminance = ([red, green, blue]) => .2126 * linear(red) + .7152 * linear(green) + .0722 * linear(blue);
const contrast = (one, other) => {
  const [low, high] = [luminance(one), luminance(other)].sort((a, b) => a - b);
  return (high + .05) / (low + .05);
};
const style = (element, part) => getComputedStyle(element, part);
const variable = name => colour(resolved(style(document.documentElement).getPropertyValue(name)));
// A colour in any notation as `rgb(..)`.
const resolved = text => {
  const probe = document.body.appendChild(document.createElement("i"));
  probe.style.color = text;
  const found = style(probe).color;
  probe.remove();
  return found;
};

// What an element is painted on: its own background and those below it, down to the map's ground or white paper.
const behind = element => {
  const layers = [];
  let below = element;
  for (; below; below = below.parentElement) {
    const { backgroundColor, opacity } = style(below);
    const layer = colour(backgroundColor);
    layer[3] *= Number(opacity);
    layers.push(layer);
    if (layer[3] === 1) {
      break;
    }
  }
  return layers.reverse().reduce((back, front) => over(front, back), [255, 255, 255, 1]);
};
const opacityOf = element => (element ? Number(style(element).opacity) * opacityOf(element.parentElement) : 1);
const isShown = element => {
  const box = element.getBoundingClientRect();
  const isDrawn = element.checkVisibility({ visibilityProperty: true, opacityProperty: true }) && box.width > 1 && box.height > 1;
  return isDrawn && !element.closest(".unseen") && style(element).clipPath === "none";
};

// Each text that is shown, with its contrast.
const told = (element, text, shade) => {
  const back = behind(element);
  const front = colour(shade);
  front[3] *= opacityOf(element);
  return { text: text.trim().slice(0, 60), at: element.id || element.className, ratio: contrast(over(front, back), back) };
};
const texts = within => {
  const walker = document.createTreeWalker(within, NodeFilter.SHOW_TEXT);
  const found = [];
  while (walker.nextNode()) {
    const element = walker.currentNode.parentElement;
    const isPart = !["SCRIPT", "STYLE"].includes(element.tagName) && !element.closest("[disabled], .leaflet-disabled");
    if (isPart && walker.currentNode.data.trim() && isShown(element)) {
      found.push(told(element, walker.currentNode.data, style(element).color));
    }
  }
  const fields = [...within.querySelectorAll("input[type=text]"), ...(within.matches("input[type=text]") ? [within] : [])];
  for (const field of fields.filter(isShown)) {
    found.push(field.value ? told(field, field.value, style(field).color) : told(field, field.placeholder, style(field, "::placeholder").color));
  }
  return found;
};

// The contrast of a line that is drawn on the map, against colours that may be behind it.
const lines = (selector, ...grounds) => [...document.querySelectorAll(selector)].map(path => {
  const { stroke, strokeOpacity } = style(path);
  const front = colour(stroke);
  front[3] *= Number(strokeOpacity) * opacityOf(path);
  return Math.min(...grounds.map(ground => contrast(over(front, ground), ground)));
});

// The contrast of the left border of an element, or its outline, with what is around it.
const border = element => contrast(colour(style(element).borderLeftColor), behind(element.parentElement));
const outline = element => {
  const { outlineStyle, outlineWidth, outlineColor, outlineOffset } = style(element);
  const around = parseFloat(outlineOffset) < 0 ? behind(element) : behind(element.parentElement);
  return { width: outlineStyle === "none" ? 0 : parseFloat(outlineWidth), ratio: contrast(colour(outlineColor), around) };
};

// Which part of the roads of a tile, drawn on a colour, stands out from it so much. Its points are a step apart.
const SIDE = 256, STEP = 24;
const picture = address => new Promise((done, failed) => {
  const image = new Image();
  image.onload = () => done(image);
  image.onerror = failed;
  image.src = address;
});
const pixelsOf = (image, ground) => {
  const canvas = document.createElement("canvas");
  canvas.width = image.width;
  canvas.height = image.height;
  const drawing = canvas.getContext("2d");
  drawing.fillStyle = `rgb(${ground.slice(0, 3).join()})`;
  drawing.fillRect(0, 0, image.width, image.height);
  drawing.drawImage(image, 0, 0);
  return drawing.getImageData(0, 0, image.width, image.height).data;
};
const pixel = (data, width, x, y) => [...data.slice(4 * (y * width + x), 4 * (y * width + x) + 3), 1];
const roadPoints = svg => {
  const widest = new Map();
  for (const path of svg.querySelectorAll("path")) {
    const line = path.getAttribute("d");
    widest.set(line, Math.max(widest.get(line) ?? 0, Number(path.getAttribute("stroke-width"))));
  }
  const probe = document.createElementNS("http://www.w3.org/2000/svg", "path");
  const found = [];
  for (const [line, width] of widest) {
    probe.setAttribute("d", line);
    for (let at = STEP / 2; at < probe.getTotalLength(); at += STEP) {
      const { x, y } = probe.getPointAtLength(at);
      found.push([x / 4, y / 4, width / 8 + .5]);
    }
  }
  return found;
};
const roadsThatStandOut = async (address, least) => {
  const ground = colour(style(document.getElementById("map")).backgroundColor);
  const svg = new DOMParser().parseFromString(await (await fetch(address)).text(), "image/svg+xml");
  const data = pixelsOf(await picture(address), ground);
  const inside = roadPoints(svg).filter(([x, y, radius]) => Math.min(x, y) > radius && Math.max(x, y) < SIDE - radius - 1);
  const standsOut = ([x, y, radius]) => {
    for (let u = Math.round(x - radius); u <= x + radius; u += 1) {
      for (let v = Math.round(y - radius); v <= y + radius; v += 1) {
        if (contrast(pixel(data, SIDE, u, v), ground) >= least) {
          return true;
        }
      }
    }
    return false;
  };
  return [inside.filter(standsOut).length, inside.length];
};

// The bands of reach drawn anew, without lines and with smooth edges: for each pixel a number, 40 for the first band and so on.
const UNIT = 40;
const bandsDrawn = (width, height) => {
  const canvas = document.createElement("canvas");
  [canvas.width, canvas.height] = [width, height];
  const drawing = canvas.getContext("2d");
  // The largest band comes first in the drawing, and last in the legend.
  const paths = [...document.querySelectorAll("path.band")];
  for (const [place, path] of paths.entries()) {
    const { a, b, c, d, e, f } = path.getScreenCTM();
    drawing.setTransform(a, b, c, d, e, f);
    drawing.fillStyle = `rgb(${UNIT * (paths.length - place)} 0 0)`;
    drawing.fill(new Path2D(path.getAttribute("d")), "evenodd");
  }
  return drawing.getImageData(0, 0, width, height).data;
};

// The colours of a picture of the page against those of the legend: at points well inside one band, how many are the legend's, and how
// many are not, for each band from the first on.
const MARGIN = 4, GRID = 3;
const bandsAsInTheLegend = async shot => {
  const legend = [...document.querySelectorAll("#bands i")].map(square => colour(style(square).backgroundColor).slice(0, 3).join());
  const image = await picture(`data:image/png;base64,${shot}`);
  const data = pixelsOf(image, [255, 255, 255]);
  const bands = bandsDrawn(image.width, image.height);
  const around = Array.from({ length: 2 * MARGIN + 1 }, (_, place) => place - MARGIN);
  const bandAt = (x, y) => bands[4 * (y * image.width + x)] / UNIT - 1;
  const counts = legend.map(() => [0, 0]);
  for (let x = MARGIN; x < image.width - MARGIN; x += GRID) {
    for (let y = MARGIN; y < image.height - MARGIN; y += GRID) {
      const band = bandAt(x, y);
      if (counts[band] && document.elementFromPoint(x, y).closest("#map") && around.every(u => around.every(v => bandAt(x + u, y + v) === band))) {
        counts[band][pixel(data, image.width, x, y).slice(0, 3).join() === legend[band] ? 0 : 1] += 1;
      }
    }
  }
  return counts;
};
