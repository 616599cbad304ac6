// Draws patches: flat shades, and the wire frame over them.

import { minus } from "./matrices.js";

const POINTS = `#version 300 es
uniform mat4 seen;
uniform vec3 place; // of the patch's origin, from the base; whole numbers
uniform vec3 base; // from the eye
layout(location = 0) in vec3 point;
out vec3 from_eye;
void main() {
  from_eye = point + place + base;
  gl_Position = seen * vec4(point + place, 1.0);
}`;

// A triangle's normal is found by how places change from pixel to pixel, so that patches need none.
const SHADES = `#version 300 es
precision highp float;
uniform vec3 colour;
uniform vec3 sun;
uniform bool is_lit;
in vec3 from_eye;
out vec4 shade;
void main() {
  vec3 normal = normalize(cross(dFdx(from_eye), dFdy(from_eye)));
  if (dot(normal, from_eye) > 0.0) normal = -normal;
  float light = 0.42 + 0.36 * dot(normal, sun) + 0.22 * dot(normal, -normalize(from_eye));
  shade = vec4(is_lit ? colour * max(light, 0.08) * 1.05 : colour, 1.0);
}`;

const GROUND = [0.078, 0.094, 0.114];
const PLAIN = [0.8, 0.79, 0.76];
const WIRE = [0.04, 0.05, 0.07];

export class Drawing {
  constructor(canvas) {
    this.canvas = canvas;
    // Where the processor draws, smooth edges would take most of the time.
    this.card = canvas.getContext("webgl2", { antialias: true, failIfMajorPerformanceCaveat: true })
      ?? canvas.getContext("webgl2", { antialias: false });
    if (!this.card) throw new Error("this browser has no WebGL2");
    const card = this.card;
    this.program = linked(card, POINTS, SHADES);
    const names = ["seen", "place", "base", "colour", "sun", "is_lit"];
    this.uniforms = Object.fromEntries(names.map((name) => [name, card.getUniformLocation(this.program, name)]));
    card.enable(card.DEPTH_TEST);
    card.clearColor(...GROUND, 1);
  }

  // Waits until the graphics card is done.
  finish() {
    this.card.readPixels(0, 0, 1, 1, this.card.RGBA, this.card.UNSIGNED_BYTE, new Uint8Array(4));
  }

  // How many pixels of what was just drawn show the ground.
  groundPixels() {
    const { card, canvas } = this;
    const pixels = new Uint8Array(4 * canvas.width * canvas.height);
    card.readPixels(0, 0, canvas.width, canvas.height, card.RGBA, card.UNSIGNED_BYTE, pixels);
    const ground = GROUND.map((part) => Math.round(255 * part));
    let count = 0;
    for (let at = 0; at < pixels.length; at += 4) {
      if (ground.every((part, channel) => Math.abs(pixels[at + channel] - part) < 2)) count += 1;
    }
    return count;
  }

  // Follows the size of the page, in pixels of the screen.
  fit() {
    const pixels = (length) => Math.max(1, Math.round(length * devicePixelRatio));
    const [width, height] = [pixels(this.canvas.clientWidth), pixels(this.canvas.clientHeight)];
    if (this.canvas.width === width && this.canvas.height === height) return false;
    [this.canvas.width, this.canvas.height] = [width, height];
    return true;
  }

  draw(patches, shown, camera, look, levels) {
    const { card, uniforms } = this;
    const base = camera.base();
    card.viewport(0, 0, this.canvas.width, this.canvas.height);
    card.clear(card.COLOR_BUFFER_BIT | card.DEPTH_BUFFER_BIT);
    card.useProgram(this.program);
    card.uniformMatrix4fv(uniforms.seen, false, camera.matrix(this.canvas.width / this.canvas.height));
    card.uniform3fv(uniforms.base, minus(base, camera.eye()));
    card.uniform3fv(uniforms.sun, camera.inFile([-0.44, 0.62, 0.65]));
    card.uniform1i(uniforms.is_lit, 1);
    // The steeper, the farther back: so triangles that are seen from the side don't speckle ridges, and lines aren't
    // hidden by the triangles which they bound.
    card.enable(card.POLYGON_OFFSET_FILL);
    card.polygonOffset(1, 1);
    const there = shown.map((number) => patches.byNumber.get(number)).filter(Boolean);
    for (const patch of there) {
      card.uniform3fv(uniforms.place, minus(patch.origin, base));
      card.uniform3fv(uniforms.colour, colourOf(patch, look.colour, levels));
      card.bindVertexArray(patch.array);
      card.drawElements(card.TRIANGLES, 3 * patch.triangles, card.UNSIGNED_SHORT, 0);
    }
    card.disable(card.POLYGON_OFFSET_FILL);
    if (look.wire) this.drawWire(patches, there, base);
    card.bindVertexArray(null);
  }

  drawWire(patches, there, base) {
    const { card, uniforms } = this;
    card.uniform1i(uniforms.is_lit, 0);
    card.uniform3fv(uniforms.colour, WIRE);
    // Far away, where lines lie close together, the colours are still to be seen.
    card.enable(card.BLEND);
    card.blendColor(0, 0, 0, 0.4);
    card.blendFunc(card.CONSTANT_ALPHA, card.ONE_MINUS_CONSTANT_ALPHA);
    for (const patch of there) {
      const edges = patches.edges(patch);
      card.uniform3fv(uniforms.place, minus(patch.origin, base));
      card.bindVertexArray(edges.array);
      card.drawElements(card.LINES, edges.count, card.UNSIGNED_SHORT, 0);
    }
    card.disable(card.BLEND);
  }
}

function linked(card, points, shades) {
  const program = card.createProgram();
  for (const [kind, text] of [[card.VERTEX_SHADER, points], [card.FRAGMENT_SHADER, shades]]) {
    const shader = card.createShader(kind);
    card.shaderSource(shader, text);
    card.compileShader(shader);
    card.attachShader(program, shader);
  }
  card.linkProgram(program);
  if (!card.getProgramParameter(program, card.LINK_STATUS)) throw new Error(card.getProgramInfoLog(program));
  return program;
}

// Coarse levels are blue, fine ones red. Numbers that follow each other get hues far apart.
function colourOf(patch, kind, levels) {
  if (kind === "plain") return PLAIN;
  if (kind === "patch") return hue((patch.number * 0.6180339887) % 1, 0.5);
  return hue(0.62 - (0.62 * patch.level) / Math.max(1, levels - 1), 0.55);
}

function hue(part, depth) {
  return [0, 2 / 3, 1 / 3].map((shift) => {
    const wave = Math.abs(((part + shift) % 1) * 6 - 3) - 1;
    return 0.95 * (1 - depth + depth * Math.min(1, Math.max(0, wave)));
  });
}
