// Strokes on a canvas, by WebGL2 or, where there is none, by lines of a 2D canvas.
'use strict';

// A stroke is a quad around it. Its light is a beam with a Gaussian profile, integrated along the
// way, so that two strokes that meet are as bright at the joint as elsewhere.
const STROKE_VERTEX = `#version 300 es
layout(location = 0) in vec4 ends;      // x0 y0 x1 y1 in units of the beam
layout(location = 1) in vec4 ink;       // red green blue, and how much of it is white
uniform vec3 place;                     // pixels of a unit, and where unit 0, 0 is
uniform vec2 size;                      // of the canvas in pixels
uniform float width;                    // the beam's standard deviation in pixels
out vec2 at;                            // along the stroke and across, in pixels
out float len;
out vec4 light;
void main() {
    vec2 a = ends.xy * place.x + place.yz, way = (ends.zw - ends.xy) * place.x;
    len = length(way);
    vec2 along = len > 1e-3 ? way / len : vec2(1.0, 0.0), across = vec2(-along.y, along.x);
    float edge = 16.0 * width;
    at = vec2((gl_VertexID & 1) == 0 ? -edge : len + edge, (gl_VertexID & 2) == 0 ? -edge : edge);
    light = ink;
    vec2 p = a + along * at.x + across * at.y;
    gl_Position = vec4(p / size * 2.0 - 1.0, 0.0, 1.0);
}`;
const STROKE_FRAGMENT = `#version 300 es
precision highp float;
in vec2 at;
in float len;
in vec4 light;
uniform float width;
out vec4 colour;
float erf(float x) {                    // Abramowitz and Stegun 7.1.27
    float s = sign(x), a = abs(x);
    float d = 1.0 + (0.278393 + (0.230389 + (0.000972 + 0.078108 * a) * a) * a) * a;
    d *= d;
    return s - s / (d * d);
}
float beam(float w) {                   // a beam of that width, and of at least a dot's length
    float l = max(len, 1.6 * w), x = at.x + (l - len) * 0.5, r = 0.70710678 / w;
    return 0.5 * (erf(x * r) + erf((l - x) * r)) * exp(-at.y * at.y * 0.5 / (w * w));
}
void main() {
    float core = beam(width), halo = 0.13 * beam(2.6 * width) + 0.035 * beam(6.0 * width);
    colour = vec4(light.rgb * (core + halo) + light.a * core * core * vec3(1.0), 1.0);
}`;

// How bright an intensity is, 0 to 1: a little more than in proportion, for eyes that see little
// blue.
function brightness(stroke) { return stroke.weight * Math.pow(stroke.intensity / 15, 0.8); }

class GlPainter {
    constructor(canvas, gl) {
        this.canvas = canvas;
        this.gl = gl;
        this.data = new Float32Array(8 * 1024);
        canvas.addEventListener('webglcontextlost', it => {
            it.preventDefault();
            this.lost = true;
        });
        canvas.addEventListener('webglcontextrestored', () => {
            this.lost = false;
            this.set_up();
        });
        this.set_up();
    }
    set_up() {
        const gl = this.gl, program = gl.createProgram();
        const parts = [[gl.VERTEX_SHADER, STROKE_VERTEX], [gl.FRAGMENT_SHADER, STROKE_FRAGMENT]];
        for (const [kind, source] of parts) {
            const shader = gl.createShader(kind);
            gl.shaderSource(shader, source);
            gl.compileShader(shader);
            if (!gl.getShaderParameter(shader, gl.COMPILE_STATUS) && !gl.isContextLost()) {
                throw new Error(gl.getShaderInfoLog(shader));
            }
            gl.attachShader(program, shader);
        }
        gl.linkProgram(program);
        gl.useProgram(program);
        this.where = {};
        for (const it of ['place', 'size', 'width']) this.where[it] = gl.getUniformLocation(program,
            it);
        gl.bindBuffer(gl.ARRAY_BUFFER, gl.createBuffer());
        for (const i of [0, 1]) {
            gl.enableVertexAttribArray(i);
            gl.vertexAttribPointer(i, 4, gl.FLOAT, false, 32, 16 * i);
            gl.vertexAttribDivisor(i, 1);
        }
        gl.enable(gl.BLEND);
        gl.blendFunc(gl.ONE, gl.ONE);
    }
    // The numbers of the strokes, and of the chosen one once more in white.
    fill(strokes, chosen) {
        const many = strokes.length + (chosen ? 1 : 0);
        if (this.data.length < 8 * many) this.data = new Float32Array(16 * many);
        const data = this.data;
        let at = 0;
        for (const s of strokes) {
            const light = brightness(s);
            data[at] = s.x0; data[at + 1] = s.y0; data[at + 2] = s.x1; data[at + 3] = s.y1;
            data[at + 4] = s.colour & 4 ? light : 0;
            data[at + 5] = s.colour & 2 ? light : 0;
            data[at + 6] = s.colour & 1 ? light : 0;
            data[at + 7] = s.colour ? 0.3 * light : 0;
            at += 8;
        }
        if (chosen) data.set([chosen.x0, chosen.y0, chosen.x1, chosen.y1, 0.8, 0.8, 0.8, 0.4], at);
        return many;
    }
    paint(strokes, place, width, chosen) {
        const gl = this.gl, many = this.fill(strokes, chosen);
        if (this.lost) return;
        gl.viewport(0, 0, this.canvas.width, this.canvas.height);
        gl.clearColor(0, 0, 0, 1);
        gl.clear(gl.COLOR_BUFFER_BIT);
        gl.bufferData(gl.ARRAY_BUFFER, this.data.subarray(0, 8 * many), gl.STREAM_DRAW);
        gl.uniform3f(this.where.place, place.scale, place.x, place.y);
        gl.uniform2f(this.where.size, this.canvas.width, this.canvas.height);
        gl.uniform1f(this.where.width, width);
        gl.drawArraysInstanced(gl.TRIANGLE_STRIP, 0, 4, many);
    }
}

class PlanePainter {
    constructor(canvas) {
        this.canvas = canvas;
        this.plane = canvas.getContext('2d');
    }
    line(s, place, ink, wide) {
        const plane = this.plane, h = this.canvas.height;
        plane.strokeStyle = ink;
        plane.lineWidth = wide;
        plane.beginPath();
        plane.moveTo(s.x0 * place.scale + place.x, h - (s.y0 * place.scale + place.y));
        plane.lineTo(s.x1 * place.scale + place.x + 0.01, h - (s.y1 * place.scale + place.y));
        plane.stroke();
    }
    paint(strokes, place, width, chosen) {
        const plane = this.plane;
        plane.globalCompositeOperation = 'source-over';
        plane.fillStyle = '#000';
        plane.fillRect(0, 0, this.canvas.width, this.canvas.height);
        plane.globalCompositeOperation = 'lighter';
        plane.lineCap = 'round';
        for (const [wide, share] of [[6 * width, 0.12], [2 * width, 1]]) {
            for (const s of strokes) {
                const light = Math.round(255 * share * brightness(s));
                const white = Math.round(0.3 * light);
                const ink = [2, 1, 0].map(bit => s.colour >> bit & 1 ? light : white);
                this.line(s, place, `rgb(${s.colour ? ink.join(',') : '0,0,0'})`, wide);
            }
        }
        if (chosen) this.line(chosen, place, '#aaa', 2 * width);
    }
}

// A canvas in a box of the page: its size, what part of the plane it shows, and a painter.
class Screen {
    constructor(canvas, {plane = false} = {}) {
        this.canvas = canvas;
        this.fits = false;                      // all strokes so far, or the standard range
        this.box = null;                        // around the strokes so far
        const gl = plane ? null : canvas.getContext('webgl2',
            {alpha: false, antialias: false, preserveDrawingBuffer: true});
        this.kind = gl ? 'WebGL2' : '2D';
        this.painter = gl ? new GlPainter(canvas, gl) : new PlanePainter(canvas);
    }
    // The box of the plane that is shown.
    range() { return this.fits && this.box ? with_edge(this.box) : PICTURE; }
    widen(strokes) { this.box = box_around(strokes, this.box); }
    // Takes the room that its parent has; in the standard range only as much as that range wants.
    resize() {
        const room = this.canvas.parentElement, ratio = devicePixelRatio || 1;
        let w = room.clientWidth, h = room.clientHeight;
        if (!this.fits) {
            const aspect = (PICTURE.x1 - PICTURE.x0) / (PICTURE.y1 - PICTURE.y0);
            [w, h] = [Math.min(w, h * aspect), Math.min(h, w / aspect)];
        }
        const wide = Math.max(1, Math.round(w * ratio)), high = Math.max(1, Math.round(h * ratio));
        if (this.canvas.width === wide && this.canvas.height === high) return;
        Object.assign(this.canvas, {width: wide, height: high});
        Object.assign(this.canvas.style, {width: `${w}px`, height: `${h}px`});
    }
    place() { return new Placement(this.range(), this.canvas.width, this.canvas.height); }
    draw(strokes, chosen = null) {
        this.resize();
        const width = Math.max(0.8, Math.min(this.canvas.width, this.canvas.height) / 720);
        this.shown = strokes;
        this.painter.paint(strokes, this.place(), width, chosen);
    }
    // The stroke shown that is nearest to an event of the mouse, within 14 pixels of the page.
    nearest(event) {
        const ratio = this.canvas.width / (this.canvas.clientWidth || 1);
        const x = event.offsetX * ratio, y = this.canvas.height - event.offsetY * ratio;
        return this.place().nearest(this.shown ?? [], x, y, 14 * ratio);
    }
}
