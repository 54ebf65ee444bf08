"""The page of `tools/animate`: what a browser shows, with the script that moves the flits."""

PAGE = """<!DOCTYPE html>
<html lang="en">
<head>
<meta charset="utf-8">
<title>{title}</title>
<style>
body {{ font-family: {sans}; color: {ink}; margin: 12px; }}
#bar {{ display: flex; gap: 10px; align-items: center; width: {width}px; }}
#round {{ min-width: 9em; }}
#at {{ flex: 1; }}
#events {{ font-family: {mono}; font-size: 12px; white-space: pre; min-height: 6em; }}
svg {{ max-width: 100%; max-height: 78vh; }}
circle {{ transition: cx 0.25s, cy 0.25s; }}
</style>
</head>
<body>
<h3>{title}</h3>
<div id="bar">
<button id="play">play</button><input id="at" type="range" min="0" max="{last}" value="0"><span id="round"></span>
</div>
{svg}
<div id="events"></div>
<script>
const film = {film};
const svg = document.querySelector("svg"), at = document.getElementById("at"), play = document.getElementById("play");
const discs = new Map();
let timer = null;

function disc(number) {{
  const [colour, isReply, isHead, said] = film.looks[number];
  const made = document.createElementNS("http://www.w3.org/2000/svg", "circle");
  const title = document.createElementNS("http://www.w3.org/2000/svg", "title");
  title.textContent = said;
  made.appendChild(title);
  made.setAttribute("r", isReply ? 0.8 * film.disc : film.disc);
  made.setAttribute("fill", isReply ? "#ffffff" : colour);
  made.setAttribute("stroke", isReply ? colour : isHead ? "{ink}" : "#ffffff");
  made.setAttribute("stroke-width", (isReply ? (isHead ? 3 : 2) : 1) * film.disc / {disc});
  return made;
}}

function show(frame) {{
  const there = new Set();
  for (const [number, x, y] of film.flits[frame]) {{
    there.add(number);
    if (!discs.has(number)) {{
      discs.set(number, disc(number));
      svg.appendChild(discs.get(number));
    }}
    discs.get(number).setAttribute("cx", x);
    discs.get(number).setAttribute("cy", y);
  }}
  for (const [number, it] of discs) {{
    if (!there.has(number)) {{
      it.remove();
      discs.delete(number);
    }}
  }}
  document.getElementById("round").textContent = film.unit + " " + film.rounds[frame];
  document.getElementById("events").textContent = film.events[frame].join("\\n");
  at.value = frame;
}}

function stop() {{
  clearInterval(timer);
  timer = null;
  play.textContent = "play";
}}

at.addEventListener("input", () => show(Number(at.value)));
play.addEventListener("click", () => {{
  if (timer !== null) return stop();
  if (Number(at.value) === film.rounds.length - 1) show(0);
  play.textContent = "stop";
  timer = setInterval(() => {{
    if (Number(at.value) === film.rounds.length - 1) return stop();
    show(Number(at.value) + 1);
  }}, 400);
}});
const asked = film.rounds.indexOf(Number(location.hash.slice(1)));
show(asked < 0 ? 0 : asked);
</script>
</body>
</html>
"""
