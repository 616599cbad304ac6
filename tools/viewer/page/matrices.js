// Vectors of three numbers, and matrices of sixteen, column by column as the graphics card takes them.

export const add = (a, b) => a.map((number, axis) => number + b[axis]);
export const minus = (a, b) => a.map((number, axis) => number - b[axis]);
export const times = (a, factor) => a.map((number) => number * factor);
export const dot = (a, b) => a[0] * b[0] + a[1] * b[1] + a[2] * b[2];

// To the screen, from places relative to a point that lies at `base` from the eye: `right`, `up` and `back` are the
// axes of the camera, and distances along `-back` from `near` to `far` are seen.
export function seen({ right, up, back }, base, angle, ratio, near, far) {
  const focal = 1 / Math.tan(angle / 2);
  const depth = (far + near) / (near - far);
  const column = ([x, y, z]) => [(focal / ratio) * x, focal * y, depth * z, -z];
  const last = column([dot(right, base), dot(up, base), dot(back, base)]);
  last[2] += (2 * far * near) / (near - far);
  return new Float32Array([...[0, 1, 2].flatMap((axis) => column([right[axis], up[axis], back[axis]])), ...last]);
}
