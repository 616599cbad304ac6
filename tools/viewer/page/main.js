// One tab: its camera is told to the server, and what comes is drawn.

import { Camera } from "./camera.js";
import { Charts } from "./charts.js";
import { control } from "./controls.js";
import { Drawing } from "./drawing.js";
import { Link } from "./link.js";
import { Panel, bytesText } from "./panel.js";
import { Patches } from "./patches.js";

const camera = new Camera();
const panel = new Panel(changed);
const charts = new Charts();
let drawing, patches, link;
let hello = null;
let frame = null; // the last one, with its patches
let status = null;
let isMoved = false; // the server is to be told the camera
let isStale = true; // the picture is to be drawn
let stamp = 0;
let sentAt = []; // when cameras were sent that no frame has answered yet
const times = { camera: 0, answer: 0, screen: 0 }; // milliseconds, of the last frame

function changed(name) {
  isStale = true;
  if (name === "freeze") {
    link?.tell({ freeze: panel.freeze });
    isMoved = !panel.freeze;
    tellNumbers();
  } else if (name === "home" && hello) {
    camera.lookAt(hello.centre, hello.radius);
    isMoved = true;
  } else if (name === "turned") {
    camera.turned = panel.turned;
    isMoved = true;
  } else {
    isMoved = true;
  }
}

const heard = {
  hello(value) {
    hello = value;
    camera.lookAt(value.centre, value.radius);
    panel.name(value.file);
    panel.state("waiting for the first frame");
    isMoved = true;
  },
  bodies(message) {
    patches.take(message);
  },
  frame(value) {
    // Bodies come before the frame that needs them, so it can be shown at once.
    value.drop.forEach((number) => patches.drop(number));
    // Of the frames that answer one camera only the first tells how long that took.
    if (value.stamp > (frame?.stamp ?? 0)) {
      sentAt = sentAt.filter((sent) => sent.stamp >= value.stamp);
      times.camera = performance.now() - sentAt[0].time;
    }
    frame = value;
    link.tell({ shown: value.number });
    times.answer = 1000 * value.core;
    isStale = true;
  },
  status(value) {
    status = value;
    charts.add(value);
    tellNumbers();
  },
  trouble(text) {
    panel.state(text, true);
  },
};

function tellNumbers() {
  if (!frame) return;
  panel.numbers([
    ["triangles", frame.triangles],
    ["patches", frame.patches.length],
    ["nodes of the cut", `${frame.nodes.toLocaleString("en")} of ${hello.nodes.toLocaleString("en")}`],
    ["tries granted", frame.granted],
    ["tries refused", frame.refused],
    ["core's answer", `${times.answer.toFixed(1)} ms`],
    ["answer to screen", `${times.screen.toFixed(1)} ms`],
    ["camera to frame", `${times.camera.toFixed(0)} ms`],
    ["bodies sent", `${frame.sent.toLocaleString("en")}, ${bytesText(frame.bytes)}`],
    ["bodies kept", `${patches.byNumber.size.toLocaleString("en")}, ${bytesText(patches.bytes)}`],
    ["sessions", status?.sessions ?? 1],
    ...(status?.faults ? [["reads that failed", status.faults]] : []),
  ]);
  if (link.told) return;
  if (panel.freeze) panel.state("frozen: this is the cut of the camera where you froze it");
  else if (status && !status.settled) panel.state("fetching");
  else panel.state(frame.refused ? "all that fits the budgets is shown" : "");
}

function tick() {
  requestAnimationFrame(tick);
  if (drawing.fit()) [isStale, isMoved] = [true, true];
  if (isMoved && hello && !panel.freeze) {
    isMoved = false;
    stamp += 1;
    sentAt.push({ stamp, time: performance.now() });
    link.tell({ camera: camera.order(drawing.canvas.height, panel.pixels, panel.limit), stamp });
  }
  if (!isStale || !hello) return;
  isStale = false;
  draw();
}

function draw() {
  drawing.draw(patches, frame?.patches ?? [], camera, panel.look, hello?.levels ?? 1);
  if (!frame || frame.isDrawn) return;
  // Both clocks are this machine's. The browser shows what was drawn right behind this.
  frame.isDrawn = true;
  times.screen = performance.timeOrigin + performance.now() - 1000 * frame.answered;
  tellNumbers();
}

try {
  drawing = new Drawing(document.getElementById("picture"));
  patches = new Patches(drawing.card);
  const lost = () => panel.state("the graphics card was lost; load this page anew", true);
  drawing.canvas.addEventListener("webglcontextlost", lost);
  control(drawing.canvas, camera, () => changed("camera"), {
    "[": () => panel.step("tau", -4), "]": () => panel.step("tau", 4),
    ",": () => panel.step("limit", -4), ".": () => panel.step("limit", 4),
    c: () => panel.nextColour(), w: () => panel.toggle("wire"), f: () => panel.toggle("freeze"),
    y: () => panel.toggle("turned"), h: () => changed("home"), p: () => panel.fold(),
  });
  link = new Link(heard);
  requestAnimationFrame(tick);
} catch (fault) {
  panel.state(fault.message, true);
}

// What tests of the page look at.
window.viewer = {
  camera, changed, patches, times,
  get frame() { return frame; },
  get status() { return status; },
  // How many pixels of the picture show the ground.
  gaps() {
    draw();
    return drawing.groundPixels();
  },
  // How long a drawing takes in this script, and until the graphics card is done with it.
  timeDrawing() {
    drawing.finish();
    const begun = performance.now();
    draw();
    const script = performance.now() - begun;
    drawing.finish();
    return { script, card: performance.now() - begun };
  },
};
