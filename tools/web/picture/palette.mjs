// The style sheet of all pictures, for light and dark pages.

// Colours after Okabe and Ito, which colour-blind readers tell apart; lines differ in width and marks in shape too. Each
// class has the colour of what is filled and of what is drawn, for light pages and for dark ones.
const CLASSES = {
  page: [["#ffffff", "#d0d7de"], ["#12171e", "#30363d"]],
  ink: [["#1f2328", null], ["#e6edf3", null]],
  soft: [["#59636e", null], ["#a5afb9", null]],
  grid: [[null, "#d8dee4"], [null, "#2c333b"]],
  edge: [[null, "#59636e"], [null, "#a5afb9"]],
  band: [["#e9edf1", null], ["#1f262f", null]],
  cut: [["#dfe5ea", null], ["#28313b", null]],
  os: [[null, "#f0b43c"], [null, "#a87400"]],
  sys: [[null, "#0072b2"], [null, "#56b4e9"]],
  mono: [[null, "#101418"], [null, "#ffffff"]],
  leap: [["#8a5a00", "#c98a00"], ["#f0b43c", "#c98a00"]],
  warp: [["#9c3a78", "#b5538f"], ["#e79cc6", "#d784b4"]],
  rate: [["#00694d", "#009e73"], ["#3ed6a8", "#1fb98b"]],
  delivered: [["#009e73", null], ["#1fa37c", null]],
  late: [["#e69f00", null], ["#e69f00", null]],
  cancelled: [["#8c959f", null], ["#79838d", null]],
  orphaned: [["#b5538f", null], ["#d784b4", null]],
  dropped: [["#d55e00", null], ["#e8711a", null]],
  expired: [["#d8c800", null], ["#e5d94a", null]],
  armed: [["#56b4e9", null], ["#3f93c4", null]],
  rest: [["none", "#8c959f"], ["none", "#79838d"]],
  mark: [[null, "#1f2328"], [null, "#e6edf3"]],
  bad: [["#c4161c", "#c4161c"], ["#ff7b72", "#ff7b72"]],
  life0: [[null, "#0072b2"], [null, "#56b4e9"]],
  life1: [[null, "#009e73"], [null, "#1fb98b"]],
  life2: [[null, "#b5538f"], [null, "#d784b4"]],
  life3: [[null, "#e69f00"], [null, "#e69f00"]],
  life4: [[null, "#56b4e9"], [null, "#9fd4f5"]],
  life5: [[null, "#d55e00"], [null, "#e8711a"]],
};
const SHAPES = `text { font-family: system-ui, 'Segoe UI', 'Noto Sans', 'DejaVu Sans', sans-serif; font-size: 12px; }
.title { font-size: 15px; font-weight: 600; }
.small { font-size: 11px; }
line, polyline, .open { fill: none !important; }
.os { stroke-width: 9; stroke-linejoin: round; }
.sys { stroke-width: 5; stroke-linejoin: round; }
.mono { stroke-width: 2; stroke-linejoin: round; }
.leap { stroke-dasharray: 1 3; }
.warp { stroke-dasharray: 6 3; stroke-width: 1.4; }
.rest { stroke-dasharray: 3 2; }
.mark { stroke-width: 1.6; }
.life { stroke-width: 2; stroke-linejoin: round; opacity: 0.85; }
.badline { stroke-width: 1.6; }
text { stroke: none !important; }
`;

/** The rules of the light pages or of the dark ones. */
function rules(number) {
  const made = Object.entries(CLASSES).map(([name, colours]) => {
    const [fill, stroke] = colours[number];
    const said = [fill && `fill: ${fill}`, stroke && `stroke: ${stroke}`].filter(Boolean);
    return `.${name} { ${said.join("; ")} }`;
  });
  return made.join("\n");
}

export const STYLE = `\n${rules(0)}\n@media (prefers-color-scheme: dark) {\n${rules(1)}\n}\n${SHAPES}`;
