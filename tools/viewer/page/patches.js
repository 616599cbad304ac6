// The patches that this tab has, on the graphics card.

const HEAD = 16; // bytes before each body in a message

export class Patches {
  constructor(card) {
    this.card = card;
    this.byNumber = new Map();
    this.bytes = 0;
    this.again = 0; // how many came that were there already
  }

  // Takes the patches of a message (patch_index.py makes their records).
  take(message) {
    const head = new DataView(message);
    for (let at = 0; at < message.byteLength; ) {
      const [number, size] = [head.getUint32(at, true), head.getUint32(at + 4, true)];
      const [points, triangles, version, level] = [8, 10, 12, 14].map((place) => head.getUint16(at + place, true));
      if (this.byNumber.has(number)) {
        this.again += 1;
        this.drop(number);
      }
      const body = version === 1 ? wideBody(message, at + HEAD, points) : narrowBody(message, at + HEAD, points);
      const corners = new Uint16Array(message, at + HEAD + body.length, 3 * triangles);
      this.byNumber.set(number, this.load(body, corners, { number, level, triangles, size }));
      this.bytes += size;
      at += HEAD + 4 * Math.ceil(size / 4);
    }
  }

  load({ origin, points, type }, corners, patch) {
    const card = this.card;
    const array = card.createVertexArray();
    const [pointBuffer, cornerBuffer] = [card.createBuffer(), card.createBuffer()];
    card.bindVertexArray(array);
    card.bindBuffer(card.ARRAY_BUFFER, pointBuffer);
    card.bufferData(card.ARRAY_BUFFER, points, card.STATIC_DRAW);
    card.enableVertexAttribArray(0);
    card.vertexAttribPointer(0, 3, card[type], false, 0, 0);
    card.bindBuffer(card.ELEMENT_ARRAY_BUFFER, cornerBuffer);
    card.bufferData(card.ELEMENT_ARRAY_BUFFER, corners, card.STATIC_DRAW);
    card.bindVertexArray(null);
    // A copy, since the numbers in place would keep the whole message.
    const kept = { corners: corners.slice(), edges: null };
    return { ...patch, ...kept, origin, array, pointBuffer, cornerBuffer, pointType: card[type] };
  }

  // The edges of a patch for the wire frame. They are made when they are first drawn, since most never are.
  edges(patch) {
    if (patch.edges) return patch.edges;
    const card = this.card;
    const array = card.createVertexArray();
    const buffer = card.createBuffer();
    card.bindVertexArray(array);
    card.bindBuffer(card.ARRAY_BUFFER, patch.pointBuffer);
    card.enableVertexAttribArray(0);
    card.vertexAttribPointer(0, 3, patch.pointType, false, 0, 0);
    card.bindBuffer(card.ELEMENT_ARRAY_BUFFER, buffer);
    const ends = linesOf(patch.corners);
    card.bufferData(card.ELEMENT_ARRAY_BUFFER, ends, card.STATIC_DRAW);
    card.bindVertexArray(null);
    patch.edges = { array, buffer, count: ends.length };
    return patch.edges;
  }

  drop(number) {
    const patch = this.byNumber.get(number);
    if (!patch) return;
    this.byNumber.delete(number);
    this.bytes -= patch.size;
    // The card passes over what was never made.
    for (const array of [patch.array, patch.edges?.array]) this.card.deleteVertexArray(array ?? null);
    for (const buffer of [patch.pointBuffer, patch.cornerBuffer, patch.edges?.buffer]) {
      this.card.deleteBuffer(buffer ?? null);
    }
  }
}

// Version 2: an origin, and offsets of 16 bits, which the graphics card takes as they are.
function narrowBody(message, at, points) {
  const origin = [...new Int32Array(message, at, 3)];
  const offsets = new Uint16Array(message, at + 12, 3 * points);
  return { origin, points: offsets, type: "UNSIGNED_SHORT", length: 12 + 6 * points };
}

// Version 1: whole places. They are taken from the first point, so that numbers on the card are small and exact.
function wideBody(message, at, points) {
  const places = new Int32Array(message, at, 3 * points);
  const origin = [...places.subarray(0, 3)];
  const offsets = Float32Array.from(places, (place, index) => place - origin[index % 3]);
  return { origin, points: offsets, type: "FLOAT", length: 12 * points };
}

// Each edge of the triangles once, as a pair of corners.
function linesOf(corners) {
  const edges = new Set();
  for (let first = 0; first < corners.length; first += 3) {
    for (let side = 0; side < 3; side++) {
      const [a, b] = [corners[first + side], corners[first + ((side + 1) % 3)]];
      edges.add(Math.min(a, b) * 65536 + Math.max(a, b));
    }
  }
  return Uint16Array.from([...edges].flatMap((edge) => [Math.floor(edge / 65536), edge % 65536]));
}
