/* The page's beginning: listeners, the theme, the link. */
function setTheme(theme) {
  document.documentElement.dataset.theme = theme;
  byId("theme").textContent = theme === "dark" ? "Light page" : "Dark page";
}

function startTheme() {
  const dark = matchMedia("(prefers-color-scheme: dark)");
  const now = () => document.documentElement.dataset.theme || (dark.matches ? "dark" : "light");
  const name = () => byId("theme").textContent = now() === "dark" ? "Light page" : "Dark page";
  name();
  dark.addEventListener("change", name);
  byId("theme").addEventListener("click", () => setTheme(now() === "dark" ? "light" : "dark"));
}

function startStation(view) {
  const click = (id, act) => byId(id).addEventListener("click", act);
  const seed = () => Number(byId("seed").value) >>> 0, program = () => Number(byId("program").value);
  click("step", () => view.step());
  click("run", () => view.run());
  click("cut", () => view.startChoice());
  click("open", () => view.open());
  click("many", () => view.many(1000));
  click("find", () => view.find());
  click("again", () => view.start(seed(), program()));
  click("with-seed", () => view.start(seed(), program()));
  click("earlier", () => view.show(view.shown - 1));
  click("later", () => view.show(view.shown + 1));
  click("carry", () => view.carryOn());
  click("cut-now", () => view.choice.end({ fences: view.choice.fences, chosen: view.choice.chosen }));
  click("cut-not", () => view.choice.end(null));
  click("all-land", () => view.choice.all(true));
  click("none-lands", () => view.choice.all(false));
  click("by-chance", () => view.choice.again());
  byId("choice").addEventListener("keydown", event => { if (event.key === "Escape") view.choice.end(null); });
  byId("fences").addEventListener("change", event => {
    const fences = Number(event.target.value);
    view.choice.set({ fences, chosen: view.station.lasting.stretch(fences).map(() => false) });
  });
  byId("program").addEventListener("change", () => view.start(seed(), program()));
  byId("slider").addEventListener("input", event => view.show(Number(event.target.value)));
  byId("speed").addEventListener("change", () => { if (view.timer) { view.pause(); view.run(); } });
  click("copy-link", async () => {
    byId("link-text").select();
    try {
      await navigator.clipboard.writeText(byId("link-text").value);
      view.say("The link is copied.");
    } catch (refused) {
      view.say("The link is in the field beside the button; copy it from there.");
    }
  });
}

function startImage(view, station) {
  const drop = byId("drop"), over = is => drop.classList.toggle("over", is);
  byId("file").addEventListener("change", event => { if (event.target.files[0]) view.take(event.target.files[0]); event.target.value = ""; });
  for (const name of ["dragover", "dragenter"]) addEventListener(name, event => { event.preventDefault(); over(true); });
  addEventListener("dragleave", event => { if (!event.relatedTarget) over(false); });
  addEventListener("drop", event => { /* anywhere on the page: else the browser would leave it for the file */
    event.preventDefault();
    over(false);
    if (!event.dataTransfer.files[0]) return;
    byId("image").scrollIntoView();
    view.take(event.dataTransfer.files[0]);
  });
  byId("read-again").addEventListener("click", () => view.bytes && view.show(view.bytes, view.name));
  byId("from-station").addEventListener("click", () => {
    view.clear();
    view.show(station.moment().image, "station.img");
  });
  byId("save-station").addEventListener("click", () => saveFile("station.img", station.moment().image));
}

async function start() {
  startTheme();
  await library.load(byId("program-bytes").textContent.replace(/\s/g, ""));
  const record = new History();
  let view = null;
  const session = new Session(await Station.make(), () => view.seen());
  view = new StationView(session, record);
  startStation(view);
  startImage(new ImageView(), view);
  const follow = async first => {
    const told = linkOf(location.hash), meant = /[#&]seed=/.test(location.hash);
    if (told) return view.play(told);
    if (first || meant) view.start(1, 0);
    if (meant) view.say("This link cannot be played; a new run begins.");
    return null;
  };
  addEventListener("hashchange", () => follow(false));
  await follow(true);
}

start().then(() => document.documentElement.dataset.ready = "yes").catch(trouble => {
  byId("said").textContent = "This page needs WebAssembly, and it could not be started: " + trouble.message;
});
