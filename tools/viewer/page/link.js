// The tab's connection with the server (page_server.py).

export class Link {
  // `on` has a function for each kind of message, and `bodies` for the binary ones.
  constructor(on) {
    this.on = on;
    this.told = false;
    this.socket = new WebSocket(`ws://${location.host}/tab`);
    this.socket.binaryType = "arraybuffer";
    this.socket.onmessage = ({ data }) => this.hear(data);
    this.socket.onclose = () => {
      if (!this.told) this.trouble("the viewer has ended; start it again and load this page anew");
    };
  }

  trouble(text) {
    this.told = true;
    this.on.trouble(text);
  }

  hear(data) {
    if (data instanceof ArrayBuffer) {
      this.on.bodies(data);
      return;
    }
    for (const [kind, value] of Object.entries(JSON.parse(data))) {
      if (kind === "trouble") this.trouble(value);
      else this.on[kind]?.(value);
    }
  }

  tell(message) {
    if (this.socket.readyState === WebSocket.OPEN) this.socket.send(JSON.stringify(message));
  }
}
