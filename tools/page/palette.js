// States and depths: their words, and how they look in light and in dark. A state has a color, a
// letter and a height of its own, so that none is told by its color alone. The colors are those of
// Okabe and Ito, which color-blind readers tell apart.

// the place of these states among all, as the page has them
const RUNNING = 0, OFF = 6;
const LOOKS = {
  running: { height: 1, light: "#009e73", dark: "#23b98d" },
  started: { height: 0.86, light: "#56b4e9", dark: "#6cc3f2" },
  pending: { height: 0.72, light: "#e5d52e", dark: "#e8dc4a" },
  "going off": { height: 0.6, light: "#d55e00", dark: "#e8762a" },
  standby: { height: 0.48, light: "#cc79a7", dark: "#d58fb6" },
  retention: { height: 0.36, light: "#8f6fc0", dark: "#a78ad6" },
  "power-down": { height: 0.22, light: "#0072b2", dark: "#3f9bd6" },
  off: { height: 0.06, light: "#7a7a7a", dark: "#8c8c8c" },
};
// each state with its name, its letter, what it means, and its look
let STATES = [];
// the states from the highest bar to the lowest, which are painted in this order
let BY_HEIGHT = [];
const DEPTHS = [
  { name: "on", light: "#e9eef2", dark: "#2b3238" },
  { name: "standby", light: "#b8c7d6", dark: "#4d5f70" },
  { name: "retention", light: "#7189a1", dark: "#7f98b0" },
  { name: "power-down", light: "#2f4459", dark: "#c3d4e4" },
];
const THEMES = {
  light: {
    ground: "#ffffff",
    band: "#f4f6f8",
    ink: "#1b1f23",
    faint: "#6a737d",
    line: "#d0d7de",
    amber: "#e69f00",
    message: "#1f5fa8",
    ack: "#00735c",
    wrong: "#c62828",
    pick: "#b3007a",
    found: "#e69f00",
    shadow: "rgba(31,95,168,.14)"
  },
  dark: {
    ground: "#14181c",
    band: "#1b2025",
    ink: "#e6edf3",
    faint: "#98a3ae",
    line: "#343c44",
    amber: "#ffb52e",
    message: "#79b8ff",
    ack: "#4fd1b0",
    wrong: "#ff7b72",
    pick: "#ff7ad9",
    found: "#ffb52e",
    shadow: "rgba(121,184,255,.18)"
  },
};

/** Takes the names, letters and meanings of states, as the page has them. */
function nameStates(states) {
  STATES = states.map(([name, letter, meaning]) => ({ name, letter, meaning, ...LOOKS[name] }));
  BY_HEIGHT = STATES.map((_, at) => at).sort((a, b) => STATES[b].height - STATES[a].height);
}

/** A color as four bytes of a pixel. */
function pixelOf(color) {
  const value = parseInt(color.slice(1), 16);
  return (0xff000000 | (value & 255) << 16 | (value & 0xff00) | value >> 16) >>> 0;
}

/** The colors of a theme, as text and as pixels. */
function paletteOf(theme) {
  const colors = { ...THEMES[theme], theme };
  colors.states = STATES.map((state) => state[theme]);
  colors.depths = DEPTHS.map((depth) => depth[theme]);
  colors.pixels = {
    ground: pixelOf(colors.ground),
    band: pixelOf(colors.band),
    line: pixelOf(colors.line),
    amber: pixelOf(colors.amber),
    states: colors.states.map(pixelOf),
    depths: colors.depths.map(pixelOf),
  };
  return colors;
}

/** A depth, with a mark behind it where another one was granted. */
function marked(look) {
  return look.depth === look.granted ? `${look.depth}` : `${look.depth}!`;
}
