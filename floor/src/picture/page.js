"use strict";
(() => {
  // Without this class the page is what it is without scripts.
  document.documentElement.className = "js";
  const one = (selector) => document.querySelector(selector);
  const all = (selector) => [...document.querySelectorAll(selector)];
  const svg = one(".day svg"), scroller = one(".scroller"), figure = one(".day"), percent = one(".tools output");
  const stations = all(".day .station"), folds = all("[data-fold]"), paths = all(".day [data-d]"), placed = all(".day [data-x]");
  const choices = all("input[name=chosen]");
  const layouts = svg.dataset.layouts.split(";").map((layout) => layout.split(" ").map(Number));
  const top = +svg.dataset.top, pitch = +svg.dataset.pitch;
  const levels = [0.15, 0.25, 0.35, 0.5, 0.6, 0.7, 0.8, 0.9, 1, 1.25, 1.6, 2];
  const thin = 20, flat = 0.28;
  let xs = layouts[0], zoom = 1;
  const width = () => xs[svg.dataset.width];

  // Heights of the stations' lines, each with how far things beside it are from it; and behind them those of the upper and the lower edge.
  function heights() {
    const rows = [];
    let y = top;
    for (const station of stations) {
      const folded = station.classList.contains("folded");
      // A row stays as high as its name, however far the picture is away.
      const height = Math.max(folded ? thin : pitch, 17 / zoom);
      rows.push([y + height / 2, folded ? flat : 1]);
      y += height;
    }
    return [...rows, [0, 1], [y, 1]];
  }

  // Puts all in its place. A path has each point as SLOT+BESIDE,ROW:OFFSET.
  function place() {
    const rows = heights(), [height] = rows.at(-1);
    const point = (_, slot, beside, row, offset) => `${xs[slot] + Number(beside ?? 0)},${rows[row][0] + offset * rows[row][1]}`;
    for (const path of paths) path.setAttribute("d", path.dataset.d.replace(/(\d+)([+-][\d.]+)?,(\d+):(-?[\d.]+)/g, point));
    for (const part of placed) part.setAttribute("transform", `translate(${xs[part.dataset.x]},${part.dataset.y})`);
    for (const [s, station] of stations.entries()) {
      station.setAttribute("transform", `translate(0,${rows[s][0]})`);
      folds[s].style.top = `${rows[s][0] * zoom}px`;
    }
    svg.setAttribute("viewBox", `0 0 ${width()} ${height}`);
    svg.style.width = `${width() * zoom}px`;
    svg.style.height = `${height * zoom}px`;
    svg.classList.toggle("far", zoom < 0.5);
    percent.value = `${Math.round(zoom * 100)}%`;
    pin();
  }

  // The picture can stay at the top while the questions scroll; what is below it has to know where it ends.
  function pin() {
    document.documentElement.style.setProperty("--below", `${figure.offsetHeight + 8}px`);
  }

  // What is in the middle stays there.
  function zoomTo(to) {
    const middle = (scroller.scrollLeft + scroller.clientWidth / 2) / zoom;
    zoom = Math.min(Math.max(to, levels[0]), levels.at(-1));
    place();
    scroller.scrollLeft = middle * zoom - scroller.clientWidth / 2;
  }

  // One level closer or away; 0: all of it, if that is not too far away.
  function zoomBy(way) {
    if (way === 0) zoomTo(Math.min(1, scroller.clientWidth / width()));
    else zoomTo((way > 0 ? levels.find((z) => z > zoom + 0.01) : levels.findLast((z) => z < zoom - 0.01)) ?? zoom);
  }

  function fold(s) {
    const folded = stations[s].classList.toggle("folded");
    folds[s].setAttribute("aria-expanded", !folded);
    place();
  }

  function toggle(selector, name, holds) {
    for (const part of all(selector)) part.classList.toggle(name, holds(part));
  }

  // A choice is a question's number, and behind it that of a moment where it has some.
  function choose(input) {
    input.checked = true;
    const question = input.value.split(",")[0], cut = input.dataset.cut?.split(",").map(Number);
    xs = layouts[one(`.day .moment[data-moment="${input.value}"]`)?.dataset.layout ?? 0];
    place();
    toggle(".day [data-of]", "shown", (part) => part.dataset.of === question);
    toggle("[data-question]", "shown", (part) => part.dataset.question === question);
    toggle(".day .moment", "on", (part) => part.dataset.moment === input.value);
    toggle(".day .past", "on", (part) => part.dataset.past === input.value);
    toggle("[data-table]", "on", (part) => part.dataset.table === input.value);
    const side = (mark) => {
      const [s, k] = (mark.dataset.event ?? `${mark.dataset.initial},0`).split(",").map(Number);
      return cut && Math.sign(k - cut[s]);
    };
    for (const [name, where] of [["before", -1], ["last", 0], ["after", 1]]) toggle(".day .event", name, (mark) => side(mark) === where);
    show();
  }

  // Scrolls to the line that is chosen, or to the chain.
  function show() {
    const boxes = all(".day .moment.on .cut, .day .ring.shown").map((part) => part.getBoundingClientRect());
    if (!boxes.length) return;
    const view = scroller.getBoundingClientRect();
    const left = Math.min(...boxes.map((b) => b.left)), right = Math.max(...boxes.map((b) => b.right));
    if (left < view.left + 20 || right > view.right - 20) scroller.scrollLeft += (left + right - view.left - view.right) / 2;
  }

  for (const input of choices) input.addEventListener("change", () => choose(input));
  for (const moment of all(".day .moment")) {
    moment.addEventListener("click", () => choose(choices.find((input) => input.value === moment.dataset.moment)));
  }
  for (const button of all("[data-zoom]")) button.addEventListener("click", () => zoomBy(+button.dataset.zoom));
  for (const [s, button] of folds.entries()) button.addEventListener("click", () => fold(s));
  scroller.addEventListener("keydown", (event) => {
    const way = { "+": 1, "=": 1, "-": -1, "0": 0 }[event.key];
    if (way === undefined || event.ctrlKey || event.metaKey || event.altKey) return;
    event.preventDefault();
    zoomBy(way);
  });
  addEventListener("resize", pin);

  // At first all stations are in sight, if they can be read so.
  place();
  const room = parseFloat(getComputedStyle(one(".frame")).maxHeight) / scroller.offsetHeight;
  if (room < 1) zoomTo(levels.findLast((z) => z <= Math.max(room, 0.6)));

  const first = choices.find((input) => input.dataset.cut) ?? choices[0];
  if (first) choose(first);
})();
