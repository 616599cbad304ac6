// Mouse, touch and keys. Lengths are parts of the picture's height.

const STEP = 0.04; // of a key
const CLOSER = 0.9; // of a key that zooms

// `changed` is called when the camera has moved; `keys` has a function for each other key.
export function control(canvas, camera, changed, keys) {
  const fingers = new Map();

  canvas.addEventListener("pointerdown", (event) => {
    canvas.setPointerCapture(event.pointerId);
    canvas.focus({ preventScroll: true });
    fingers.set(event.pointerId, [event.clientX, event.clientY]);
  });
  for (const kind of ["pointerup", "pointercancel"]) {
    canvas.addEventListener(kind, (event) => fingers.delete(event.pointerId));
  }
  canvas.addEventListener("contextmenu", (event) => event.preventDefault());

  canvas.addEventListener("pointermove", (event) => {
    const before = fingers.get(event.pointerId);
    if (!before) return;
    const height = canvas.clientHeight;
    const now = [event.clientX, event.clientY];
    const [right, down] = [(now[0] - before[0]) / height, (now[1] - before[1]) / height];
    const other = [...fingers.entries()].find(([finger]) => finger !== event.pointerId)?.[1];
    if (other) {
      // Two fingers: their middle moves, and their distance zooms.
      const distance = (place) => Math.max(1, Math.hypot(place[0] - other[0], place[1] - other[1]));
      camera.pan(right / 2, -down / 2);
      camera.zoom(distance(before) / distance(now));
    } else if (event.buttons & 6 || event.shiftKey) {
      camera.pan(right, -down);
    } else {
      camera.orbit(right, down);
    }
    fingers.set(event.pointerId, now);
    changed();
  });

  canvas.addEventListener("wheel", (event) => {
    event.preventDefault();
    // A wheel that counts lines makes greater steps than one that counts pixels.
    const lines = event.deltaMode === 0 ? event.deltaY / 100 : event.deltaY / 3;
    camera.zoom(Math.exp(0.15 * Math.min(4, Math.max(-4, lines))));
    changed();
  }, { passive: false });

  const moves = {
    ArrowLeft: [1, 0], ArrowRight: [-1, 0], ArrowUp: [0, 1], ArrowDown: [0, -1],
  };
  addEventListener("keydown", (event) => {
    if (event.ctrlKey || event.metaKey || event.altKey) return;
    // A slider or list keeps the keys that change it.
    const isOfForm = event.target.matches?.("input, select, button, summary");
    const move = moves[event.key];
    if (move && !isOfForm) {
      if (event.shiftKey) camera.pan(move[0] * STEP, -move[1] * STEP);
      else camera.orbit(move[0] * STEP, move[1] * STEP);
    } else if (["+", "="].includes(event.key)) {
      camera.zoom(CLOSER);
    } else if (event.key === "-") {
      camera.zoom(1 / CLOSER);
    } else if (keys[event.key] && !event.target.matches?.("select")) {
      keys[event.key]();
      event.preventDefault();
      return;
    } else {
      return;
    }
    event.preventDefault();
    changed();
  });
}
