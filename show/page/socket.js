/* The way to the show. Each message has the whole face, and is answered with `seen N`. Where none has come for a
 * second, the show is lost: what is sent then is not kept, and it is joined again, after a while that grows. */
const LOST_MS = 1000, CONNECT_MS = 3000, FIRST_WAIT_MS = 250, LONGEST_WAIT_MS = 2000, LOOK_MS = 200;
const MOST_WAITING = 4096;

export class Show {
  constructor(token, { onFace, onLost }) {
    this.query = token ? `?t=${encodeURIComponent(token)}` : "";
    this.onFace = onFace;
    this.onLost = onLost;
    this.socket = null;
    this.wait = FIRST_WAIT_MS;
    this.lost = true;
    setInterval(() => this.look(), LOOK_MS);
    /* a tablet that slept must not wake up with yesterday's lights */
    document.addEventListener("visibilitychange", () => {
      this.lost = true;
      this.onLost("waking up");
      this.look();
    });
  }

  join() {
    if (this.socket) return;
    const socket = new WebSocket(`ws://${location.host}/ws${this.query}`, "gibbonplate");
    let opened = false;
    this.socket = socket;
    this.lastAt = performance.now();
    socket.onopen = () => (opened = true);
    socket.onclose = () => {
      this.lose("joining again");
      if (!opened) this.askWhy();
    };
    socket.onmessage = ({ data }) => this.take(JSON.parse(data));
  }

  take(face) {
    if (face.v !== 1) return location.reload();
    this.lastAt = performance.now();
    this.wait = FIRST_WAIT_MS;
    this.lost = false;
    this.onFace(face);
    this.socket.send(`seen ${face.message}`);
  }

  lose(why) {
    const socket = this.socket;
    if (socket) {
      this.socket = null;
      socket.onopen = socket.onmessage = socket.onclose = null;
      socket.close();
      setTimeout(() => this.join(), this.wait * (0.5 + Math.random()));
      this.wait = Math.min(this.wait * 2, LONGEST_WAIT_MS);
    }
    this.lost = true;
    this.onLost(why);
  }

  look() {
    const patience = this.socket?.readyState === WebSocket.CONNECTING ? CONNECT_MS : LOST_MS;
    if (this.socket && performance.now() - this.lastAt > patience) this.lose("it says nothing");
  }

  /* Why the show does not let us in, where it says so: a browser does not tell its page. */
  async askWhy() {
    try {
      const answer = await fetch(`may${this.query}`, { cache: "no-store" });
      const text = (await answer.text()).replace(/<[^>]*>/g, " ").replace(/^\s*\d+\s*/, "").trim();
      if (!answer.ok && this.lost) this.onLost(text);
    } catch { /* it is not there at all */ }
  }

  send(text) {
    const open = !this.lost && this.socket?.readyState === WebSocket.OPEN;
    if (!open || this.socket.bufferedAmount > MOST_WAITING) return false;
    this.socket.send(text);
    return true;
  }

  async sheet() {
    const answer = await fetch(`sheet${this.query}`, { cache: "no-store" });
    if (!answer.ok) throw new Error(`the show does not give it (${answer.status})`);
    return answer.json();
  }
}
