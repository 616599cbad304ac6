// The settings, and the numbers of the frame.

const get = (name) => document.getElementById(name);
const PIXELS = [0.5, 50]; // what the slider of TAU goes through, and
const TRIANGLES = [1000, 10000000]; // that of LIMIT, in equal ratios

const between = ([low, high], part) => low * (high / low) ** part;
const partOf = ([low, high], value) => Math.log(value / low) / Math.log(high / low);
const twoDigits = (number) => Number(number.toPrecision(2));

export class Panel {
  // `changed` is called with the name of a setting when somebody has set it.
  constructor(changed) {
    this.changed = changed;
    get("tau").value = 100 * partOf(PIXELS, 2);
    get("limit").value = 100 * partOf(TRIANGLES, 500000);
    for (const name of ["tau", "limit", "colour", "wire", "freeze", "turned"]) {
      get(name).addEventListener("input", () => this.set(name));
    }
    get("home").addEventListener("click", () => changed("home"));
    get("settings").addEventListener("submit", (event) => event.preventDefault());
    if (innerWidth <= 600) get("panel").open = false;
    this.tellSettings();
  }

  set(name) {
    this.tellSettings();
    this.changed(name);
  }

  get pixels() { return twoDigits(between(PIXELS, get("tau").value / 100)); }
  get limit() { return twoDigits(between(TRIANGLES, get("limit").value / 100)); }
  get look() { return { colour: get("colour").value, wire: get("wire").checked }; }
  get freeze() { return get("freeze").checked; }
  get turned() { return get("turned").checked; }

  tellSettings() {
    get("tau_text").textContent = this.pixels;
    get("limit_text").textContent = this.limit.toLocaleString("en");
  }

  // What a key does.
  step(name, by) {
    get(name).value = Number(get(name).value) + by;
    this.set(name);
  }

  toggle(name) {
    get(name).checked = !get(name).checked;
    this.set(name);
  }

  nextColour() {
    const list = get("colour");
    list.selectedIndex = (list.selectedIndex + 1) % list.options.length;
    this.set("colour");
  }

  fold() {
    get("panel").open = !get("panel").open;
  }

  name(file) {
    get("file").textContent = file;
    document.title = `${file} – jichallay`;
  }

  state(text, isTrouble = false) {
    if (get("state").textContent !== text) get("state").textContent = text;
    get("state").classList.toggle("trouble", isTrouble);
  }

  // Pairs of a name and a number or text.
  numbers(pairs) {
    get("numbers").replaceChildren(...pairs.flatMap(([name, value]) => {
      const [term, number] = [document.createElement("dt"), document.createElement("dd")];
      term.textContent = name;
      number.textContent = typeof value === "number" ? value.toLocaleString("en") : value;
      return [term, number];
    }));
  }
}

export function bytesText(bytes) {
  const units = ["bytes", "KB", "MB", "GB", "TB"];
  let unit = 0;
  while (bytes >= 1000 && unit < 4) [bytes, unit] = [bytes / 1000, unit + 1];
  return `${unit ? bytes.toPrecision(3) : bytes} ${units[unit]}`;
}
