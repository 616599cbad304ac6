// Charts of the last minute: loads, tries, and bytes fetched.

import { bytesText } from "./panel.js";

const MINUTE = 60000;
const COLOURS = ["--first", "--second", "--third", "--fourth"];
const KEYS = ["first", "second", "third", "fourth"];

export class Charts {
  constructor() {
    this.samples = []; // by time, each a status with the rates since the one before
    const style = getComputedStyle(document.documentElement);
    this.colours = COLOURS.map((name) => style.getPropertyValue(name).trim());
    this.quiet = style.getPropertyValue("--quiet").trim();
    // What isn't seen isn't drawn. Time goes on where nothing is told, too.
    setInterval(() => this.draw(), 1000);
  }

  add(status) {
    const now = performance.now();
    const before = this.samples.at(-1);
    const seconds = before ? Math.max(0.25, (now - before.time) / 1000) : 1;
    const rate = (number, earlier) => (before ? Math.max(0, number - earlier) / seconds : 0);
    this.samples.push({
      time: now, status,
      loads: status.tiers.map(({ load, budget }) => (budget ? load / budget : 0)),
      tries: [rate(status.granted, before?.status.granted), rate(status.refused, before?.status.refused)],
      fetched: status.fetched.map((bytes, tier) => rate(bytes, before?.status.fetched[tier])),
    });
    // One sample from before the minute stays, since lines begin with it.
    while (this.samples.length > 2 && this.samples[1].time < now - MINUTE) this.samples.shift();
    if (!before) this.nameTiers(status.tiers.length);
    this.draw();
  }

  nameTiers(count) {
    const names = Array.from({ length: count }, (_, tier) => {
      const name = document.createElement("span");
      name.className = KEYS[tier];
      name.textContent = ` tier ${tier}`;
      return name;
    });
    document.getElementById("loads_key").replaceChildren(...names);
  }

  draw() {
    if (!document.getElementById("panel").open || document.hidden) return;
    const percent = (part) => `${Math.round(100 * part)} %`;
    const count = (number) => Math.ceil(number).toLocaleString("en");
    this.chart("loads", (sample) => sample.loads, 1, percent, true);
    this.chart("tries", (sample) => sample.tries, 10, count, false);
    this.chart("fetched", (sample) => sample.fetched, 1000, (number) => bytesText(Math.ceil(number)), false);
  }

  // `least` is what the top of the chart stands for at least. A load stays until it is told anew, a rate doesn't.
  chart(name, values, least, text, stays) {
    const canvas = document.getElementById(name);
    const [width, height] = [canvas.clientWidth, canvas.clientHeight];
    if (!width) return;
    [canvas.width, canvas.height] = [width * devicePixelRatio, height * devicePixelRatio];
    const brush = canvas.getContext("2d");
    brush.scale(devicePixelRatio, devicePixelRatio);
    const now = performance.now();
    const rows = this.samples.map((sample) => [(1 - (now - sample.time) / MINUTE) * width, values(sample)]);
    const top = Math.max(least, ...rows.flatMap(([, numbers]) => numbers));
    const high = (number) => height - 2 - (number / top) * (height - 6);
    (rows[0]?.[1] ?? []).forEach((_, line) => {
      brush.beginPath();
      brush.strokeStyle = this.colours[line];
      brush.lineWidth = 1.5;
      rows.forEach(([x, numbers], place) => {
        // A rate is that of the time before its sample.
        if (place) brush.lineTo(stays ? x : rows[place - 1][0], high(stays ? rows[place - 1][1][line] : numbers[line]));
        brush.lineTo(x, high(numbers[line]));
      });
      brush.lineTo(stays ? width : rows.at(-1)[0], high(stays ? rows.at(-1)[1][line] : 0));
      if (!stays) brush.lineTo(width, high(0));
      brush.stroke();
    });
    brush.fillStyle = this.quiet;
    brush.font = "11px system-ui, sans-serif";
    brush.fillText(text(top), 4, 12);
    const latest = rows.at(-1)?.[1].map(text).join(", ");
    canvas.setAttribute("aria-label", `${canvas.getAttribute("aria-label").split(":")[0]}: ${latest ?? "nothing yet"}`);
  }
}
