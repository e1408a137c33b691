/** Lines drawn by WebGL: all lines of a kind by one call. Nearer ones are drawn stronger. */

const VERTEX = `
attribute vec3 point;
uniform vec3 right, up, towards, centre, near, far;
uniform vec2 half_size;
uniform float scale, size;
varying vec3 colour;
void main() {
  vec3 p = point - centre;
  float depth = dot(towards, point) / size;
  gl_Position =
    vec4(dot(right, p) * scale / half_size.x, dot(up, p) * scale / half_size.y, 0.0, 1.0);
  colour = mix(far, near, clamp(depth + 0.5, 0.0, 1.0));
}`;
const FRAGMENT = `
precision mediump float;
varying vec3 colour;
uniform float strength;
void main() { gl_FragColor = vec4(colour * strength, strength); }`;
const UNIFORMS = [
  "right", "up", "towards", "centre", "near", "far", "half_size", "scale", "size", "strength",
];

function programOf(gl) {
  const program = gl.createProgram();
  for (const [kind, text] of [[gl.VERTEX_SHADER, VERTEX], [gl.FRAGMENT_SHADER, FRAGMENT]]) {
    const shader = gl.createShader(kind);
    gl.shaderSource(shader, text);
    gl.compileShader(shader);
    gl.attachShader(program, shader);
  }
  gl.linkProgram(program);
  return gl.getProgramParameter(program, gl.LINK_STATUS) ? program : null;
}

/** The pairs of places between which pieces of the lines lead, but those of some lines. */
function piecesOf(lines, isLeftOut) {
  const places = [];
  for (let k = 0; k < lines.count; k++) {
    if (isLeftOut(k)) continue;
    for (let place = lines.from[k]; place + 1 < lines.from[k + 1]; place++)
      places.push(place, place + 1);
  }
  return Uint32Array.from(places);
}

export class WebglLines {
  /** What draws on a canvas, or null where there is no WebGL; and what to do where that ends. */
  static on(canvas, onLost) {
    const gl = canvas.getContext("webgl",
      { antialias: true, alpha: true, premultipliedAlpha: true });
    if (!gl || !gl.getExtension("OES_element_index_uint")) return null;
    const program = programOf(gl);
    return program ? new WebglLines(canvas, gl, program, onLost) : null;
  }

  constructor(canvas, gl, program, onLost) {
    Object.assign(this, { canvas, gl, program, kinds: new Map(), isWebgl: true });
    this.places = Object.fromEntries(UNIFORMS.map(it => [it, gl.getUniformLocation(program, it)]));
    canvas.addEventListener("webglcontextlost", onLost);
  }

  /** How many vertices are in buffers. */
  get vertexCount() {
    return [...this.kinds.values()].reduce((sum, it) => sum + it.points, 0);
  }

  /** Sets the lines of a kind. */
  setLines(kind, lines, isLeftOut = () => false) {
    const { gl } = this, pieces = piecesOf(lines, isLeftOut);
    if (!this.kinds.has(kind)) {
      this.kinds.set(kind, { vertices: gl.createBuffer(), pieces: gl.createBuffer() });
    }
    const found = this.kinds.get(kind);
    gl.bindBuffer(gl.ARRAY_BUFFER, found.vertices);
    gl.bufferData(gl.ARRAY_BUFFER, lines.points, gl.STATIC_DRAW);
    gl.bindBuffer(gl.ELEMENT_ARRAY_BUFFER, found.pieces);
    gl.bufferData(gl.ELEMENT_ARRAY_BUFFER, pieces, gl.STATIC_DRAW);
    Object.assign(found, { count: pieces.length, points: lines.pointCount });
  }

  begin(camera, density) {
    const { gl, places } = this, { turn } = camera;
    gl.viewport(0, 0, this.canvas.width, this.canvas.height);
    gl.clearColor(0, 0, 0, 0);
    gl.clear(gl.COLOR_BUFFER_BIT);
    gl.useProgram(this.program);
    gl.enable(gl.BLEND);
    gl.blendFunc(gl.ONE, gl.ONE_MINUS_SRC_ALPHA);
    gl.uniform3fv(places.right, turn.slice(0, 3));
    gl.uniform3fv(places.up, turn.slice(3, 6));
    gl.uniform3fv(places.towards, turn.slice(6, 9));
    gl.uniform3fv(places.centre, camera.centre);
    gl.uniform2f(places.half_size, camera.width / 2, camera.height / 2);
    gl.uniform1f(places.scale, camera.scale);
    gl.uniform1f(places.size, camera.size);
    gl.lineWidth(density > 1 ? 2 : 1);
  }

  draw(kind, near, far, strength) {
    const { gl, places } = this, found = this.kinds.get(kind);
    if (!found || !found.count) return true;
    gl.uniform3fv(places.near, near.map(it => it / 255));
    gl.uniform3fv(places.far, far.map(it => it / 255));
    gl.uniform1f(places.strength, strength);
    gl.bindBuffer(gl.ARRAY_BUFFER, found.vertices);
    const point = gl.getAttribLocation(this.program, "point");
    gl.enableVertexAttribArray(point);
    gl.vertexAttribPointer(point, 3, gl.FLOAT, false, 0, 0);
    gl.bindBuffer(gl.ELEMENT_ARRAY_BUFFER, found.pieces);
    gl.drawElements(gl.LINES, found.count, gl.UNSIGNED_INT, 0);
    return true;
  }
}
