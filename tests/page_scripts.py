"""What tests/browser.py asks of a page of `floor picture`: scripts that run in the browser, each of which returns something."""

# What is on the page.
STATE = """
const all = (selector, take) => [...document.querySelectorAll(selector)].map(take);
const texts = (mark, selector) => [...mark.querySelectorAll(selector)].map((text) => text.textContent);
const label = (mark) => texts(mark, ":scope > text:not(.count, .never)");
return {
  events: all(".day [data-event]", (e) => [e.dataset.event, label(e), e.querySelector(".count").textContent]),
  initial: all(".day [data-initial]", (e) => [e.dataset.initial, label(e)]),
  names: all("[data-fold]", (button) => button.textContent),
  arrows: all(".day [data-arrow]", (arrow) => arrow.dataset.arrow),
  messages: all(".day .message", (message) => +message.dataset.message),
  lost: all(".day .lost", (message) => +message.dataset.message),
  cuts: all(".day .moment", (moment) => moment.dataset.moment),
  tables: all("[data-table]", (table) => [
    table.dataset.table,
    [...table.querySelectorAll("tbody tr")].map((row) => [...row.cells].map((cell) => cell.textContent)),
    [...table.querySelectorAll("li")].map((item) => +item.textContent.match(/line (\\d+)/)[1]),
  ]),
  cells: document.querySelectorAll("td").length,
  proved: all(".proof code", (code) => code.textContent),
  start: all(".answer b", (word) => word.textContent),
  nevers: all(".choice .never", (word) => word.textContent),
  told: document.querySelectorAll(".told").length,
  rows: all(".rows [data-event]", (e) => e.dataset.event),
};"""

# The points of a path as it is drawn on the screen, close enough to each other: letters M, L and C with their points.
POINTS = """
const points = (path) => {
  const matrix = path.getScreenCTM(), found = [];
  let last;
  for (const [, letter, numbers] of path.getAttribute("d").matchAll(/([MLC])([^MLC]*)/g)) {
    const ends = numbers.trim().split(/ +/).map((end) => new DOMPoint(...end.split(",").map(Number)).matrixTransform(matrix));
    const [a, b, c, d] = letter === "C" ? [last, ...ends] : [last ?? ends[0], last ?? ends[0], ends[0], ends[0]];
    const steps = Math.ceil((Math.abs(d.x - a.x) + Math.abs(d.y - a.y)) / 2) + 1;
    for (let i = 0; i <= steps; i += 1) {
      const t = i / steps, u = 1 - t, weigh = (v) => u ** 3 * a[v] + 3 * u * u * t * b[v] + 3 * u * t * t * c[v] + t ** 3 * d[v];
      found.push({ x: weigh("x"), y: weigh("y") });
    }
    last = d;
  }
  return found;
};"""

# Lines of clocks and messages with the marks that they go through, if not just at the edge.
CROSSED = POINTS + """
const rows = [...document.querySelectorAll(".day .station")].map((station) => [...station.querySelectorAll(".event")].map((mark) => {
  const { left, right, top, bottom } = mark.querySelector(":scope > rect").getBoundingClientRect();
  return { left: left + 2, right: right - 2, top: top + 2, bottom: bottom - 2, id: mark.dataset.event ?? `${mark.dataset.initial},0` };
}));
const found = new Set();
for (const line of document.querySelectorAll(".day :is(.clock, .message)")) {
  const id = line.dataset.arrow ?? `message ${line.dataset.message}`;
  for (const { x, y } of points(line)) {
    for (const row of rows) {
      if (y <= row[0].top || y >= row[0].bottom) continue;
      for (const mark of row) if (x > mark.left && x < mark.right) found.add(`${id}|${mark.id}`);
    }
  }
}
return [...found].map((pair) => pair.split("|"));"""

# Texts of the picture that lie over each other, but for those of one mark.
OVERLAPS = """
const boxes = [...document.querySelectorAll(".day svg text")].map((text) => [text, text.getBoundingClientRect()]);
const texts = boxes.filter(([, box]) => box.width > 0);
const both = (a, b, from, to) => Math.min(a[to], b[to]) - Math.max(a[from], b[from]);
const over = (a, b) => both(a, b, "left", "right") > 1 && both(a, b, "top", "bottom") > 2;
const found = [];
for (const [i, [a, box]] of texts.entries()) {
  for (const [b, other] of texts.slice(i + 1)) {
    if (a.parentNode !== b.parentNode && over(box, other)) found.push([a.textContent, b.textContent]);
  }
}
return found;"""

# For each station where the line of a moment crosses the station's line, and left and right end of each of its marks.
PASSED = POINTS + """
const cut = document.querySelector(`.day .moment[data-moment="${arguments[0]}"] .cut`);
const line = points(cut), near = 1.5;
return [...document.querySelectorAll(".day .station")].map((station) => {
  const y = station.getScreenCTM().f;
  const marks = [...station.querySelectorAll(".event > rect")].map((rect) => rect.getBoundingClientRect());
  return [line.filter((p) => Math.abs(p.y - y) < near).map((p) => p.x), marks.map((box) => [box.left, box.right])];
});"""

# What is emphasised and what is shown.
STATES = """
const shown = (selector, take) => [...document.querySelectorAll(selector)].filter((part) => part.getClientRects().length).map(take);
const thick = (moment) => parseFloat(getComputedStyle(moment.querySelector(".cut")).strokeWidth) > 3;
const states = (mark) => ["before", "last", "after"].filter((state) => mark.classList.contains(state));
return {
  marks: [...document.querySelectorAll(".day .event")].map(states),
  tables: shown("[data-table]", (table) => table.dataset.table),
  shown: shown(".day .moment", (moment) => moment.dataset.moment),
  lines: shown(".day .moment", (moment) => moment).filter(thick).map((moment) => moment.dataset.moment),
};"""

# What is marked of the chain that is shown.
CHAIN = """
const shown = (selector) => [...document.querySelectorAll(selector)].filter((part) => part.getClientRects().length);
return {
  rings: shown(".day .ring").map((ring) => ring.closest(".event").dataset.event ?? `${ring.closest(".event").dataset.initial},0`),
  arrows: shown(".day .chain").map((arrow) => arrow.dataset.chain),
};"""

# Sizes of the picture, which stations are folded, which have texts, and how far each name stands from its line.
BOXES = """
const svg = document.querySelector(".day svg").getBoundingClientRect();
const stations = [...document.querySelectorAll(".day .station")], buttons = [...document.querySelectorAll("[data-fold]")];
const middle = (button) => { const box = button.getBoundingClientRect(); return (box.top + box.bottom) / 2; };
return {
  width: svg.width, height: svg.height,
  folded: buttons.map((button) => button.getAttribute("aria-expanded") === "false"),
  texts: stations.map((station) => [...station.querySelectorAll("text")].some((text) => text.getClientRects().length > 0)),
  beside: stations.map((station, s) => Math.abs(station.getScreenCTM().f - middle(buttons[s]))),
};"""

# What is shown of the page.
HIDDEN = """
const shown = (selector) => [...document.querySelectorAll(selector)].filter((part) => part.getClientRects().length).length;
return {
  day: shown(".day") > 0, tools: shown(".tools") > 0, rows: shown(".rows") > 0, inputs: shown("input"), tables: shown("[data-table]"),
  proofs: shown(".proof"),
};"""

# How light the paper is, and contrasts by the rule of WCAG.
COLOURS = """
const style = getComputedStyle(document.documentElement);
const light = (name) => {
  const hex = style.getPropertyValue(name).trim().replace(/^#(.)(.)(.)$/, "#$1$1$2$2$3$3");
  const parts = [1, 3, 5].map((at) => parseInt(hex.slice(at, at + 2), 16) / 255);
  const [r, g, b] = parts.map((part) => part <= 0.04045 ? part / 12.92 : ((part + 0.055) / 1.055) ** 2.4);
  return 0.2126 * r + 0.7152 * g + 0.0722 * b;
};
const contrast = (a, b) => { const [lower, upper] = [light(a), light(b)].sort((x, y) => x - y); return (upper + 0.05) / (lower + 0.05); };
const pairs = [["--ink", "--paper"], ["--ink", "--wash"], ["--ink", "--past"], ["--soft", "--paper"], ["--soft", "--wash"],
               ["--soft", "--past"], ["--moment", "--paper"], ["--moment", "--past"], ["--on-moment", "--moment"], ["--chain", "--paper"]];
return { paper: light("--paper"), contrasts: Object.fromEntries(pairs.map(([a, b]) => [`${a} on ${b}`, contrast(a, b)])) };"""

# How long the browser takes to click on each of some elements and to lay the page out again, in milliseconds.
TIMES = """
return arguments[0].map((selector) => {
  const start = performance.now();
  document.querySelector(selector).click();
  document.body.offsetHeight;
  return performance.now() - start;
});"""
