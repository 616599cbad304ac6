// A camera that looks at a point from a distance. All lengths are in units of the file.

import { add, dot, minus, seen, times } from "./matrices.js";

const ANGLE = Math.PI / 3; // from the top of the picture to its bottom
const STEEPEST = Math.PI / 2 - 0.001;
const FARTHEST_EYE = 2097152; // of the order `view`, on each axis
const MOST = 65536; // of FOCAL and TAU
// FOCAL and TAU are whole numbers; both are taken this often, so that TAU may be a part of a pixel.
const PARTS = 10;

export class Camera {
  constructor() {
    this.turned = false; // whether y is up, and not z
    this.lookAt([0, 0, 0], 1);
  }

  // The whole of a ball is seen.
  lookAt(centre, radius) {
    this.centre = [...centre];
    this.radius = Math.max(radius, 1);
    this.target = [...centre];
    this.yaw = -1.9;
    this.pitch = 0.7;
    this.distance = this.radius * 1.7;
  }

  // Numbers of a world in which z is up, in the world of the file.
  inFile([x, y, z]) {
    return this.turned ? [x, z, -y] : [x, y, z];
  }

  axes() {
    const [cosine, sine] = [Math.cos(this.pitch), Math.sin(this.pitch)];
    const [x, y] = [Math.cos(this.yaw), Math.sin(this.yaw)];
    return {
      right: this.inFile([-y, x, 0]),
      up: this.inFile([-x * sine, -y * sine, cosine]),
      back: this.inFile([x * cosine, y * cosine, sine]),
    };
  }

  eye() {
    return add(this.target, times(this.axes().back, this.distance));
  }

  // By parts of the picture's height.
  orbit(right, up) {
    this.yaw -= right * Math.PI;
    this.pitch = Math.min(STEEPEST, Math.max(-STEEPEST, this.pitch + up * Math.PI));
  }

  // What is at the target's distance goes along with the pointer.
  pan(right, up) {
    const height = 2 * this.distance * Math.tan(ANGLE / 2);
    const axes = this.axes();
    this.target = minus(this.target, add(times(axes.right, right * height), times(axes.up, up * height)));
    const away = minus(this.target, this.centre);
    const length = Math.sqrt(dot(away, away));
    if (length > 2 * this.radius) this.target = add(this.centre, times(away, (2 * this.radius) / length));
  }

  zoom(factor) {
    this.distance = Math.min(this.radius * 8, Math.max(0.5, this.distance * factor));
  }

  // A point of whole numbers close to the eye. From it all places are whole, so that 32 bits have them exactly: where
  // patches meet, their points come to the same place on the screen.
  base() {
    return this.eye().map(Math.round);
  }

  matrix(ratio) {
    const base = minus(this.base(), this.eye());
    const away = minus(this.eye(), this.centre);
    const distance = Math.sqrt(dot(away, away));
    const far = distance + 1.2 * this.radius;
    // Not nearer than this, since depths have 24 bits.
    const near = Math.max(distance - 1.2 * this.radius, far / 20000);
    return seen(this.axes(), base, ANGLE, ratio, near, far);
  }

  // The six numbers of the order `view`, on a screen of so many rows.
  order(rows, pixels, limit) {
    const eye = this.eye().map((number) => Math.round(Math.min(FARTHEST_EYE, Math.max(-FARTHEST_EYE, number))) + 0);
    const whole = (number) => Math.min(MOST, Math.max(1, Math.round(number)));
    const focal = whole((PARTS * rows) / (2 * Math.tan(ANGLE / 2)));
    return [...eye, focal, whole(PARTS * pixels), limit];
  }
}
