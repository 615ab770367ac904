/* The panel: it lights what the show says is heard, and types what is touched. */
import { ICONS, withLine } from "./names.js";
import { Sheet } from "./sheet.js";
import { Show } from "./socket.js";

const $ = (id) => document.getElementById(id);
/* for the tests: what came, and when it was shown, us of the day's clock */
const measured = new URLSearchParams(location.search).has("measure") ? (window.measured = []) : null;
const AGAIN_MS = 1000;
const dayUs = () => Math.round((performance.timeOrigin + performance.now()) * 1000);
let face = null, lostWhy = "connecting", version = 0, loading = false, faults = [];

const show = new Show(location.hash.slice(1), {
  onFace(next) {
    const fresh = next.change !== face?.change;
    face = next;
    lostWhy = "";
    draw();
    if (measured && fresh) measured.push([next.change, next.heard, dayUs()]);
    if (next.sheet !== version) load();
  },
  onLost(why) {
    face = null;
    lostWhy = why;
    draw();
  },
});

const sheet = new Sheet($("sheet"), (list) => {
  if (show.lost) return false;
  does(list);
  return true;
});

/* ---- what is touched */

/* `type ATDT{5551234}` types the line in the place of what is in braces, where there is one. */
function fill(text) {
  return text.replace(/\{([^}]*)\}/, (_, other) => $("line").value || other);
}

/* What a touch sends; null for one that sends nothing. */
function message({ touch, text }) {
  switch (touch) {
    case "wait":
    case "put": return null;
    case "hangup": return "hangup";
    case "carrier": return `carrier ${text.toLowerCase() || (face?.carrier ? "down" : "up")}`;
    default: return `${touch} ${fill(text)}`;
  }
}

/* One after the other; where one is not taken, those behind it are not sent either. */
async function does(list) {
  for (const word of list) {
    const sent = message(word);
    if (sent !== null && !show.send(sent)) return;
    if (word.touch === "wait") await new Promise((then) => setTimeout(then, Number(word.text) * 1000));
    else if (word.touch === "put") $("line").value += word.text;
    else if (word.text.includes("{")) $("line").value = "";
  }
}

$("form").addEventListener("submit", (event) => {
  event.preventDefault();
  if (show.send(`type ${$("line").value}`)) $("line").value = "";
});
$("hangup").addEventListener("click", () => show.send("hangup"));
document.addEventListener("contextmenu", (event) => event.preventDefault());

/* ---- what is shown */

function say(element, text) {
  if (element.textContent !== text) element.textContent = text;
}

function draw() {
  const silent = !!face && !face.sounding;
  document.body.classList.toggle("lost", !face);
  document.body.classList.toggle("mute", silent);
  say($("lost").firstElementChild, silent ? "No sound" : "The show is lost");
  say($("lost").lastElementChild, silent ? face.notice || "the JACK server asks for none" : lostWhy);
  say($("notice"), face?.notice || "");
  say($("reply"), face ? face.refused || withLine(face.said[face.said.length - 1]) : "");
  say($("heard"), face?.sounding ? ICONS[face.icon] : "");
  sheet.show(face);
  report();
}

/* What is wrong with the sheet, and with the file of it as it is now. */
function report() {
  const all = [...(face?.sheetFault ? [`the file cannot be shown as it is now: ${face.sheetFault}`] : []), ...faults];
  const box = $("report"), text = all.join("\n");
  if (box.dataset.text === text) return;
  box.dataset.text = text;
  box.hidden = !all.length;
  box.firstElementChild.textContent = `sheet: ${all[0] || ""}${all.length > 1 ? ` (and ${all.length - 1} more)` : ""}`;
  const items = all.map((line) => Object.assign(document.createElement("li"), { textContent: line }));
  box.lastElementChild.replaceChildren(...items);
}

async function load() {
  if (loading) return;
  loading = true;
  try {
    const made = await show.sheet();
    sheet.draw(made);
    faults = made.own ? made.faults.split("\n").filter(Boolean) : [];
    const small = sheet.tooSmall().map(({ name, px }) => `"${name}" is ${px} px here: too small for a finger`);
    if (made.own) faults.push(...small);
    version = made.version;
    loading = false;
  } catch (fault) {
    faults = [`it cannot be shown: ${fault.message}`];
    setTimeout(() => (loading = false), AGAIN_MS);
  }
  draw();
}

draw();
show.join();
