"""How the pages look, and the script by which they refresh themselves; both stand in each page."""

STYLE = """
:root { --ink: #16202c; --soft: #4c5866; --line: #c4cbd3; --paper: #fff; --ground: #eef1f4;
  --accent: #0a4a8f; --bad: #a01212; --bad-ground: #fdf0ef; --good: #14602f;
  --good-ground: #eef7f0; }
* { box-sizing: border-box; }
body { margin: 0; font: 1rem/1.45 system-ui, sans-serif; color: var(--ink);
  background: var(--ground); overflow-wrap: anywhere; }
header { background: var(--ink); color: #fff; padding: 0.8rem 1rem; }
header > div, main { max-width: 62rem; margin: 0 auto; }
header > div { display: flex; flex-wrap: wrap; gap: 0.2rem 1.5rem; align-items: baseline;
  padding: 0 1rem; }
header h1 { font-size: 1.3rem; margin: 0; line-height: 1.2; }
header p { margin: 0; color: #d5dce4; }
header a { color: #fff; margin-left: auto; }
main { padding: 1rem; display: grid; gap: 1rem; grid-template-columns: repeat(2, minmax(0, 1fr));
  align-items: start; }
section { background: var(--paper); border: 1px solid var(--line); border-radius: 0.5rem;
  padding: 0.9rem 1.1rem 1.1rem; min-width: 0; }
section.whole { grid-column: 1 / -1; }
section:empty { display: none; }
section:focus { outline: none; }
#register:not(:empty) { grid-row: span 2; }
h2 { font-size: 1.05rem; margin: 0 0 0.6rem; }
h3 { font-size: 0.95rem; margin: 1.1rem 0 0.4rem; }
p { margin: 0.4rem 0; }
.note { color: var(--soft); font-size: 0.92rem; }
ol.phases { display: flex; flex-wrap: wrap; gap: 0.35rem; list-style: none; margin: 0 0 0.9rem;
  padding: 0; }
ol.phases li { padding: 0.15rem 0.7rem; border: 1px solid var(--line); border-radius: 1rem;
  color: var(--soft); font-size: 0.9rem; }
ol.phases li[aria-current] { background: var(--accent); border-color: var(--accent); color: #fff;
  font-weight: 600; }
dl.figures { display: grid; grid-template-columns: repeat(auto-fit, minmax(10rem, 1fr));
  gap: 0.8rem 1.2rem; margin: 0.7rem 0 0; }
dl.figures dt { color: var(--soft); font-size: 0.9rem; }
dl.figures dd { margin: 0; font-size: 1.55rem; font-weight: 600; line-height: 1.25;
  font-variant-numeric: tabular-nums; overflow-wrap: normal; }
dl.figures dd small { display: block; font-size: 0.85rem; font-weight: 400; color: var(--soft); }
.scroll { overflow-x: auto; }
.unseen { position: absolute; width: 1px; height: 1px; overflow: hidden; clip-path: inset(50%);
  white-space: nowrap; }
table { border-collapse: collapse; overflow-wrap: normal; }
th, td { padding: 0.35rem 1.4rem 0.35rem 0; text-align: left; vertical-align: baseline;
  border-bottom: 1px solid var(--line); }
thead th { font-size: 0.88rem; color: var(--soft); font-weight: 600; vertical-align: bottom; }
tbody th { font-weight: 400; }
.number { text-align: right; font-variant-numeric: tabular-nums; white-space: nowrap; }
thead .number { white-space: normal; }
td:last-child, th:last-child { padding-right: 0; }
td:nth-child(2) { min-width: 5rem; }
td button { white-space: nowrap; }
.accepted { color: var(--good); } .refused { color: var(--bad); }
.answer { padding: 0.6rem 0.9rem; border-left: 0.35rem solid var(--good);
  background: var(--good-ground); margin: 0; }
.answer.refused { border-color: var(--bad); background: var(--bad-ground); color: var(--ink); }
.answer b { display: block; }
form + .answer { margin-top: 0.9rem; }
form { margin: 0; }
form + form { margin-top: 0.7rem; }
dl.figures + form, .scroll + form { margin-top: 0.9rem; }
fieldset { border: 0; margin: 0 0 0.8rem; padding: 0; min-width: 0; }
legend { padding: 0; font-weight: 600; font-size: 0.95rem; margin-bottom: 0.3rem; }
.row { display: grid; grid-template-columns: repeat(auto-fit, minmax(9.5rem, 1fr));
  gap: 0.6rem 0.9rem; margin-bottom: 0.7rem; align-items: start; }
.row > div:only-child { max-width: 22rem; }
.row.step { grid-template-columns: 3.4rem minmax(0, 1fr) minmax(0, 1fr); }
.row.step > b { padding-top: 1.95rem; font-weight: 600; font-size: 0.92rem; }
.row.step > .fault { grid-column: 2 / -1; margin: -0.4rem 0 0; }
label { display: block; font-size: 0.88rem; color: var(--soft); margin-bottom: 0.15rem; }
input, select { font: inherit; width: 100%; padding: 0.4rem 0.55rem; border: 1px solid #737f8c;
  border-radius: 0.3rem; background: #fff; color: var(--ink); min-height: 2.6rem;
  font-variant-numeric: tabular-nums; }
[aria-invalid=true] { border: 2px solid var(--bad); background: var(--bad-ground); }
fieldset[aria-invalid=true] { border-width: 0 0 0 0.35rem; background: none; padding-left: 0.8rem; }
fieldset:focus { outline: none; }
.fault { color: var(--bad); font-size: 0.92rem; margin: 0.2rem 0 0; font-weight: 600; }
button { font: inherit; font-weight: 600; padding: 0.45rem 1.1rem; min-height: 2.6rem;
  border: 2px solid var(--accent); border-radius: 0.3rem; background: var(--accent); color: #fff;
  cursor: pointer; }
button.second { background: #fff; color: var(--accent); }
button.small { min-height: 2.2rem; padding: 0.2rem 0.7rem; font-size: 0.92rem; }
button:hover { filter: brightness(0.92); }
:focus-visible { outline: 3px solid #d97706; outline-offset: 2px; }
.buttons { display: flex; flex-wrap: wrap; gap: 0.6rem; }
summary { cursor: pointer; font-weight: 600; padding: 0.3rem 0; }
svg { display: block; width: 100%; height: auto; }
.narrow { display: none; }
.offline { background: #7a3d00; color: #fff; padding: 0.4rem 1rem; text-align: center; margin: 0; }
[hidden] { display: none; }
@media (max-width: 46rem) {
  main { grid-template-columns: minmax(0, 1fr); padding: 0.6rem; gap: 0.6rem; }
  header { padding: 0.7rem 0; } header > div { padding: 0 0.9rem; }
  section { padding: 0.8rem 0.9rem 1rem; }
  dl.figures { grid-template-columns: repeat(auto-fit, minmax(8.2rem, 1fr)); gap: 0.7rem 1rem; }
  dl.figures dd { font-size: 1.3rem; }
  .row.step { grid-template-columns: minmax(0, 1fr) minmax(0, 1fr); }
  .row.step > b { grid-column: 1 / -1; padding: 0; margin-bottom: -0.4rem; }
  .row.step > .fault { grid-column: 1 / -1; }
  .broad { display: none; } .narrow { display: block; }
  #register:not(:empty) { grid-row: auto; }
  .buttons button { flex: 1 1 100%; } td button { width: auto; }
  table { font-size: 0.93rem; width: 100%; } th, td { padding-right: 0.6rem; }
  .cards thead { display: none; } .cards, .cards tbody, .cards tr { display: block; }
  .cards tr { padding: 0.4rem 0; border-bottom: 1px solid var(--line); }
  .cards td { display: flex; justify-content: space-between; gap: 1rem; border: 0;
    padding: 0.1rem 0; text-align: right; white-space: normal; }
  .cards td::before { content: attr(data-name); color: var(--soft); text-align: left; }
  .cards td:empty { display: none; } }
"""

# Asks whether the page has changed, and puts the parts that have in place of the old ones. What is
# being typed stays, unless its own part has changed.
SCRIPT = """
(() => {
  "use strict";
  const main = document.querySelector("main");
  const offline = document.getElementById("offline");
  const pause = (ms) => new Promise((done) => setTimeout(done, ms));
  const shown = () => new Promise((done) => document.hidden
    ? document.addEventListener("visibilitychange", () => done(), { once: true }) : done());
  const refresh = async () => {
    const answer = await fetch(main.dataset.page, { cache: "no-store" });
    if (!answer.ok) { throw new Error("no page"); }
    const page = new DOMParser().parseFromString(await answer.text(), "text/html");
    const focused = document.activeElement && document.activeElement.id;
    const fresh = page.querySelector("main");
    const said = [];
    for (const part of fresh.querySelectorAll("section[data-part]")) {
      const old = document.getElementById(part.id);
      if (old && old.dataset.part !== part.dataset.part) {
        old.replaceChildren(...part.childNodes);
        old.className = part.className;
        said.push(part.dataset.said || "");
        old.dataset.part = part.dataset.part;
      }
    }
    document.getElementById("said").textContent = said.join(" ");
    main.dataset.shown = fresh.dataset.shown;
    document.title = page.title;
    const again = focused && document.getElementById(focused);
    if (again && again !== document.activeElement) { again.focus({ preventScroll: true }); }
  };
  const watch = async () => {
    for (;;) {
      await shown();
      const stop = new AbortController();
      const hide = () => document.hidden && stop.abort();
      document.addEventListener("visibilitychange", hide);
      try {
        const asked = main.dataset.page + "/changes?shown=" + main.dataset.shown;
        const answer = await fetch(asked, { cache: "no-store", signal: stop.signal });
        if (answer.status === 404) { location.replace(main.dataset.page); return; }
        if (answer.status === 200) { await refresh(); await pause(250); }
        offline.hidden = answer.status < 400;
        if (answer.status >= 400) { await pause(3000); }
      } catch (error) {
        if (!stop.signal.aborted) { offline.hidden = false; await pause(3000); }
      } finally {
        document.removeEventListener("visibilitychange", hide);
      }
    }
  };
  watch();
})();
"""
