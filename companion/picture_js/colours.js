/** The colours of the picture, in light and in dark. */

const LIGHT = {
  red: "#d0021b", paleRed: "#e58a92", ink: "#33404c", chord: "#7a8894", rim: "#fff", label: "#fff",
  near: [62, 78, 94], far: [190, 200, 209], inner: [150, 165, 180],
  groups: ["#1f77d0", "#b35c00", "#12803f", "#8e44ad", "#00707a", "#8c4a12", "#b0154f", "#4d5c00"],
  axes: ["#c0392b", "#1e8449", "#1f5fbf"],
};
const DARK = {
  red: "#ff4d5e", paleRed: "#b8505b", ink: "#d5dde5", chord: "#8b98a5", rim: "#10161c",
    label: "#10161c",
  near: [214, 224, 234], far: [74, 86, 98], inner: [104, 118, 132],
  groups: ["#6fb1ff", "#ffae5c", "#5fd38d", "#d09bff", "#5cd0da", "#e0a070", "#ff8fb8", "#c0d05a"],
  axes: ["#ff7a6b", "#6fd08c", "#7fb0ff"],
};

let isPrinted = false;
const prefersDark = matchMedia("(prefers-color-scheme: dark)");

/** Paper is white, whatever the screen is. */
export function setPrinted(value) {
  isPrinted = value;
}

export const isDark = () => prefersDark.matches && !isPrinted;
export const colours = () => (isDark() ? DARK : LIGHT);
export const colourOf = group => colours().groups[group % LIGHT.groups.length];
export const onColoursChanged = call => prefersDark.addEventListener("change", call);
