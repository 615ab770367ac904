/* A sheet: it is drawn as the show hands it over, lit by a face, and says what is touched. What its elements are the
 * show has read (sheet.c). */
import { ICONS, withLine } from "./names.js";

const FINGER_PX = 40, BOUNCE_MS = 300, PRESSED_MS = 150;

/* In a sheet that has no styles of its own for it, what is not lit is dim. */
const STYLE = `
  svg { width: 100%; height: 100%; display: block; }
  .scrolled svg { height: auto; min-height: 100%; }
  .touch { cursor: pointer; touch-action: none; outline: none; }
  .scrolled .touch { touch-action: pan-y; }
  .touch:focus-visible { outline: 3px solid #fff; }
  svg.plain .light:not(.lit) { opacity: .22; }
  svg.plain .touch.pressed { opacity: .6; }
  .hidden { display: none; }`;

const TESTS = {
  icon: (face, is) => (is === "11" ? face.carrier === 1 : face.icon === Number(is)),
  key: (face, is) => face.key === is,
  state: (face, is) => face.state === Number(is),
  mode: (face, is) => face.mode === is,
};

function textOf(face, what) {
  switch (what) {
    case "reply": return withLine(face.said[face.said.length - 1]);
    case "percent": return face.total ? String(Math.floor((face.sample * 100) / face.total)) : "0";
    case "seconds": return face.rate ? (face.sample / face.rate).toFixed(1) : "0.0";
    case "total": return face.total ? String(face.total) : "–";
    default: return String(face[what]);
  }
}

/* Inkscape keeps the text of a line in a tspan within the text. */
function write(element, text) {
  let at = element;
  while (at.firstElementChild?.localName === "tspan") at = at.firstElementChild;
  if (at.textContent !== text) at.textContent = text;
}

function writeReplies(element, said) {
  const lines = element.querySelectorAll("tspan");
  const last = (i) => withLine(said[said.length - lines.length + i] || ["", ""]);
  if (lines.length) lines.forEach((line, i) => write(line, last(i) || "\u00a0"));
  else write(element, said.map(withLine).filter(Boolean).join(" / "));
}

/* A picture that is in the file itself. */
function isOwn(element) {
  const href = element.getAttribute("href") || element.getAttributeNS("http://www.w3.org/1999/xlink", "href") || "";
  return element.localName === "image" && href.startsWith("data:");
}

export class Sheet {
  constructor(host, touched) {
    this.touched = touched;
    this.lights = [];
    this.texts = [];
    this.bars = [];
    this.touches = [];
    this.svg = null;
    /* its styles and names are its own: a sheet cannot cover what the page has to say */
    this.root = host.attachShadow({ mode: "open" });
    this.frame = document.createElement("div");
    this.frame.style.height = "100%";
    this.root.append(Object.assign(document.createElement("style"), { textContent: STYLE }), this.frame);
    this.host = host;
    addEventListener("resize", () => this.lay());
  }

  /* Draws a sheet, or throws what is wrong with it. */
  draw(made) {
    const parsed = new DOMParser().parseFromString(made.svg, "image/svg+xml");
    const fault = parsed.querySelector("parsererror");
    if (fault) throw new Error(fault.textContent.split("\n")[0]);
    const svg = document.importNode(parsed.documentElement, true);
    const elements = [svg, ...svg.querySelectorAll("*")];
    this.lights = [];
    this.texts = [];
    this.bars = [];
    this.touches = [];
    for (const word of made.words) this.hang(elements[word.n], word);
    for (const { element, list } of this.touches) this.listen(element, list);
    for (const element of svg.querySelectorAll("script, foreignObject, image")) if (!isOwn(element)) element.remove();
    if (!/\.lit\b/.test(svg.querySelector("style")?.textContent || "")) svg.classList.add("plain");
    this.prepare(svg);
    this.svg = svg;
    this.frame.replaceChildren(svg);
    this.lay();
  }

  hang(element, word) {
    if (word.light) {
      this.lights.push({ element, how: word.light, of: word.of, is: word.is });
      if (word.light === "lit") element.classList.add("light");
    } else if (word.touch) {
      const own = this.touches.find((t) => t.element === element);
      if (own) own.list.push(word);
      else this.touches.push({ element, list: [word] });
    } else if (word.bar) this.bars.push(element);
    else this.texts.push({ element, what: word.write });
  }

  /* A drawing has a frame of its own to be scaled to the screen. Where it has a second layout, `data-tall` has the
   * places for an upright screen. */
  prepare(svg) {
    const width = parseFloat(svg.getAttribute("width")), height = parseFloat(svg.getAttribute("height"));
    if (!svg.hasAttribute("viewBox") && width > 0 && height > 0) svg.setAttribute("viewBox", `0 0 ${width} ${height}`);
    svg.removeAttribute("width");
    svg.removeAttribute("height");
    this.wide = svg.getAttribute("viewBox");
    this.tall = svg.getAttribute("data-tall");
    this.places = [...svg.querySelectorAll("[data-tall]")].map((element) => ({
      element, wide: element.getAttribute("transform") || "", tall: element.getAttribute("data-tall") }));
  }

  lay() {
    if (!this.svg) return;
    const upright = this.tall && this.host.clientHeight > this.host.clientWidth;
    if (this.tall) {
      this.svg.setAttribute("viewBox", upright ? this.tall : this.wide);
      for (const { element, wide, tall } of this.places) element.setAttribute("transform", upright ? tall : wide);
    }
    this.scroll(false);
    if (this.tooSmall().length) this.scroll(true);
  }

  scroll(on) {
    this.frame.classList.toggle("scrolled", on);
    this.host.classList.toggle("tall", on);
    this.scrolled = on;
  }

  /* What is too small for a finger on this screen, in pixels. */
  tooSmall() {
    return this.touches
      .map(({ element, list }) => {
        const box = element.getBoundingClientRect();
        const name = list.map((word) => `${word.touch} ${word.text}`.trim()).join("; ");
        return { name, px: Math.round(Math.min(box.width, box.height)) };
      })
      .filter(({ px }) => px < FINGER_PX);
  }

  listen(element, list) {
    const quick = list.every((word) => word.touch === "put");
    let last = -1e9;
    const press = (event) => {
      event.stopPropagation();
      if (!quick && event.timeStamp - last < BOUNCE_MS) return;
      last = event.timeStamp;
      if (!this.touched(list)) return;
      element.classList.add("pressed");
      setTimeout(() => element.classList.remove("pressed"), PRESSED_MS);
    };
    element.classList.add("touch");
    element.setAttribute("role", "button");
    element.setAttribute("tabindex", "0");
    /* a finger that scrolls types nothing */
    element.addEventListener("pointerdown", (event) => !this.scrolled && event.button === 0 && press(event));
    element.addEventListener("click", (event) => this.scrolled && press(event));
    element.addEventListener("keydown", (event) => [" ", "Enter"].includes(event.key) && !event.repeat && press(event));
  }

  /* Shows a face; none is true where it is null. */
  show(face) {
    const heard = face?.sounding ? face : null;
    for (const { element, how, of, is } of this.lights) {
      const lit = !!heard && TESTS[of](heard, is);
      if (how === "lit") element.classList.toggle("lit", lit);
      else element.classList.toggle("hidden", how === "on" ? !lit : lit);
      if (how === "lit" && (of === "icon" || of === "key")) this.name(element, of, is, lit);
    }
    for (const { element, what } of this.texts) {
      if (what === "replies") writeReplies(element, face ? face.said : []);
      else write(element, face ? textOf(face, what) : "–");
    }
    for (const bar of this.bars) {
      const box = bar.getBBox();
      bar.style.transformOrigin = `${box.x}px ${box.y}px`;
      bar.style.transform = `scaleX(${face?.total ? Math.min(1, face.sample / face.total) : 0})`;
    }
  }

  /* For a screen reader: what it is, and whether it is lit. */
  name(element, of, is, lit) {
    const name = `${of === "icon" ? `${is} ${ICONS[Number(is)]}` : `key ${is}`}, ${lit ? "lit" : "not lit"}`;
    if (element.getAttribute("aria-label") !== name) element.setAttribute("aria-label", name);
    if (!element.hasAttribute("role")) element.setAttribute("role", "img");
  }
}
