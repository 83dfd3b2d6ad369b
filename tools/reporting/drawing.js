// Draws the chosen record: both shapes as wires, the points and the normal, seen along parallel lines, in the frame of shape 1.
"use strict";
(() => {
  const data = JSON.parse(document.getElementById("data").textContent);
  const records = new Map(data.records.map((record) => [record.number, record]));
  const element = (id) => document.getElementById(id);
  const svg = element("drawing");
  const [WIDTH, HEIGHT] = [720, 440];

  // ---- vectors

  const add = (a, b) => a.map((part, i) => part + b[i]);
  const sub = (a, b) => a.map((part, i) => part - b[i]);
  const scale = (a, factor) => a.map((part) => part * factor);
  const dot = (a, b) => a[0] * b[0] + a[1] * b[1] + a[2] * b[2];
  const cross = (a, b) => [a[1] * b[2] - a[2] * b[1], a[2] * b[0] - a[0] * b[2], a[0] * b[1] - a[1] * b[0]];
  const length = (a) => Math.hypot(...a);
  const unit = (a, otherwise) => (length(a) > 0 ? scale(a, 1 / length(a)) : otherwise);
  const [X, Y, Z] = [[1, 0, 0], [0, 1, 0], [0, 0, 1]];

  // The quaternion is not normalised: one that is not of length 1 stretches too.
  const turned = ([x, y, z, w], v) => {
    const b = [x, y, z];
    return add(add(scale(v, w * w - dot(b, b)), scale(b, 2 * dot(v, b))), scale(cross(b, v), 2 * w));
  };

  // ---- shapes: the points and the radius around them whose hull the shape is, and wires, each with the normals of the surface beside it

  const arc = (centre, u, v, radius, turn) => {
    const steps = Math.ceil((24 * turn) / Math.PI);
    const outward = (step) => add(scale(u, Math.cos((turn * step) / steps)), scale(v, Math.sin((turn * step) / steps)));
    const on = (step) => add(centre, scale(outward(step), radius));
    return Array.from({ length: steps }, (_, step) => ({ ends: [on(step), on(step + 1)], normals: [outward(step + 0.5)] }));
  };
  const ring = (centre, u, v, radius) => arc(centre, u, v, radius, 2 * Math.PI);

  const ball = ([radius]) => {
    const o = [0, 0, 0];
    return { points: [o], radius, wires: [...ring(o, X, Y, radius), ...ring(o, Y, Z, radius), ...ring(o, Z, X, radius)] };
  };

  const cuboid = (half) => {
    const corners = [0, 1, 2, 3, 4, 5, 6, 7].map((bits) => half.map((part, axis) => ((bits >> axis) & 1 ? part : -part)));
    const wires = [];
    for (const [axis, one, other] of [[0, 1, 2], [1, 2, 0], [2, 0, 1]])
      for (const bits of [0, 1 << one, 1 << other, (1 << one) | (1 << other)]) {
        const face = (k) => scale([X, Y, Z][k], (bits >> k) & 1 ? 1 : -1);
        wires.push({ ends: [corners[bits], corners[bits | (1 << axis)]], normals: [face(one), face(other)] });
      }
    return { points: corners, radius: 0, wires };
  };

  const capsule = (n) => {
    const [a, b, radius] = [n.slice(0, 3), n.slice(3, 6), n[6]];
    const along = unit(sub(b, a), X);
    const u = unit(cross(along, Math.abs(along[2]) < 0.9 ? Z : X), Y);
    const v = cross(along, u);
    const wires = [...ring(a, u, v, radius), ...ring(b, u, v, radius)];
    for (const side of [u, v]) {
      wires.push(...arc(a, side, scale(along, -1), radius, Math.PI), ...arc(b, side, along, radius, Math.PI));
      for (const outward of [side, scale(side, -1)])
        wires.push({ ends: [a, b].map((end) => add(end, scale(outward, radius))), normals: [outward] });
    }
    return { points: [a, b], radius, wires };
  };

  const triangle = (n) => {
    const corners = [n.slice(0, 3), n.slice(3, 6), n.slice(6, 9)];
    return { points: corners, radius: 0, wires: corners.map((corner, i) => ({ ends: [corner, corners[(i + 1) % 3]], normals: [] })) };
  };

  const SHAPES = { ball, cuboid, capsule, triangle };
  // A radius or a half extent is drawn without its sign.
  const sized = (kind, n) => (kind === "cuboid" ? n.map(Math.abs) : kind === "triangle" ? n : [...n.slice(0, -1), Math.abs(n[n.length - 1])]);

  const placed = (shape, rotation, translation) => ({
    points: shape.points.map((point) => add(turned(rotation, point), translation)),
    radius: shape.radius * dot4(rotation),
    wires: shape.wires.map(({ ends, normals }) => ({
      ends: ends.map((end) => add(turned(rotation, end), translation)),
      normals: normals.map((normal) => turned(rotation, normal)),
    })),
  });
  const dot4 = ([x, y, z, w]) => x * x + y * y + z * z + w * w;

  // ---- a record's text and answers in numbers

  // A NaN is written by its bits; what is not finite is drawn nowhere.
  const numberOf = (word) => (word.startsWith("0x") ? NaN : Number(word));
  const finite = (numbers) => numbers.every(Number.isFinite);

  function sceneOf(record) {
    const [first, second, ...parts] = record.text.split("\n").map((line) => line.split(" "));
    const shapes = [first, second].map(([kind, ...words]) => ({ kind, numbers: words.map(numberOf) }));
    const [rotation, translation] = parts.map(([, ...words]) => words.map(numberOf));
    // As in the Rust, a ball is not turned, and so never stretched.
    const turn = second[0] === "ball" ? [0, 0, 0, 1] : rotation;
    if (!finite([...shapes[0].numbers, ...shapes[1].numbers, ...turn, ...translation])) return null;
    const [one, two] = shapes.map(({ kind, numbers }) => SHAPES[kind](sized(kind, numbers)));
    return { bodies: [one, placed(two, turn, translation)], answers: record.answers.map(pointsOf) };
  }

  function pointsOf(answer) {
    const n = answer.words.map(numberOf);
    const groups = [];
    for (let i = 0; i < n.length; i += 3) groups.push(n.slice(i, i + 3));
    const normal = groups.pop() || [];
    return { points: groups.every(finite) ? groups : [], normal: finite(normal) ? unit(normal, null) : null, whole: finite(n) };
  }

  // ---- the view

  const view = { azimuth: 0, elevation: 0, zoom: 1 };
  const VIEWS = { oblique: [0.55, 0.4], x: [0, 0], y: [-Math.PI / 2, 0], z: [-Math.PI / 2, Math.PI / 2] };
  const look = (name) => ([view.azimuth, view.elevation] = VIEWS[name]);

  function basis() {
    const [ca, sa, ce, se] = [Math.cos(view.azimuth), Math.sin(view.azimuth), Math.cos(view.elevation), Math.sin(view.elevation)];
    return { right: [-sa, ca, 0], up: [-se * ca, -se * sa, ce], toward: [ce * ca, ce * sa, se] };
  }

  /** The middle and the radius of all that is drawn. */
  function extent(scene) {
    const around = scene.bodies.flatMap(({ points, radius }) => points.map((point) => ({ point, radius })));
    const alone = scene.answers.flatMap(({ points }) => points.map((point) => ({ point, radius: 0 })));
    const all = [...around, ...alone];
    const end = (most, sign) => [0, 1, 2].map((axis) => most(...all.map(({ point, radius }) => point[axis] + sign * radius)));
    const middle = scale(add(end(Math.min, -1), end(Math.max, 1)), 0.5);
    return { middle, radius: Math.max(...all.map(({ point, radius }) => length(sub(point, middle)) + radius)) || 1 };
  }

  /** The outline of points on the paper, in order. */
  function hull(points) {
    const sorted = [...points].sort((a, b) => a[0] - b[0] || a[1] - b[1]);
    const turns = (a, b, c) => (b[0] - a[0]) * (c[1] - a[1]) - (b[1] - a[1]) * (c[0] - a[0]);
    const half = (list) => {
      const chain = [];
      for (const point of list) {
        while (chain.length > 1 && turns(chain[chain.length - 2], chain[chain.length - 1], point) <= 0) chain.pop();
        chain.push(point);
      }
      return chain.slice(0, -1);
    };
    return sorted.length < 3 ? sorted : [...half(sorted), ...half(sorted.reverse())];
  }

  // ---- drawing

  const word = (point) => `${point[0].toFixed(1)} ${point[1].toFixed(1)}`;
  const line = (points, kind) => `<path class="${kind}" d="M${points.map(word).join("L")}"/>`;

  function bodyDrawn(body, name, paper, toward, factor) {
    const around = ([x, y]) => {
      const radius = body.radius * factor;
      return Array.from({ length: 64 }, (_, i) => [x + radius * Math.cos((i * Math.PI) / 32), y + radius * Math.sin((i * Math.PI) / 32)]);
    };
    const outline = hull(body.points.map(paper).flatMap((point) => (body.radius > 0 ? around(point) : [point])));
    const faces = (wire) => wire.normals.length === 0 || wire.normals.some((normal) => dot(normal, toward) > 0);
    const drawn = (wires, kind) => `<path class="${name} ${kind}" d="${wires.map((wire) => `M${wire.ends.map(paper).map(word).join("L")}`).join("")}"/>`;
    const closed = outline.length ? `<path class="${name} body" d="M${outline.map(word).join("L")}Z"/>` : "";
    return drawn(body.wires.filter((wire) => !faces(wire)), "back") + closed + drawn(body.wires.filter(faces), "front");
  }

  function arrowDrawn(from, to, kind) {
    const [dx, dy] = [to[0] - from[0], to[1] - from[1]];
    const size = Math.hypot(dx, dy);
    const [ux, uy] = size > 1 ? [dx / size, dy / size] : [0, -1];
    const side = (sign) => [to[0] - 9 * ux - sign * 4 * uy, to[1] - 9 * uy + sign * 4 * ux];
    return line([from, to], `normal ${kind}`) + `<path class="head" d="M${word(to)}L${word(side(1))}L${word(side(-1))}Z"/>`;
  }

  function answerDrawn({ points, normal }, place, paper, scene) {
    const kind = place > 0 ? "second" : "";
    const mark = place > 0 ? "′" : "";
    const start = points[0] || scene.bodies[0].points.reduce(add, [0, 0, 0]).map((part) => part / scene.bodies[0].points.length);
    let drawn = "";
    if (points.length === 2) drawn += line(points.map(paper), `between ${kind}`);
    if (normal) drawn += arrowDrawn(paper(start), paper(add(start, scale(normal, 0.45 * scene.extent.radius))), kind);
    points.forEach((point, i) => {
      const [x, y] = paper(point);
      drawn += `<circle class="${i ? "two" : "one"}" cx="${x.toFixed(1)}" cy="${y.toFixed(1)}" r="4.5"/>`;
      drawn += `<text x="${(x + 7).toFixed(1)}" y="${(y + (i ? 14 : -6)).toFixed(1)}">${i + 1}${mark}</text>`;
    });
    return drawn;
  }

  function axesDrawn({ right, up }) {
    const tip = (axis, size) => [48 + size * dot(axis, right), HEIGHT - 48 - size * dot(axis, up)];
    const axis = (direction, name) => {
      const [x, y] = tip(direction, 38);
      return line([tip(direction, 0), tip(direction, 28)], "axis") + `<text class="faint middle" x="${x.toFixed(1)}" y="${(y + 4).toFixed(1)}">${name}</text>`;
    };
    return axis(X, "x") + axis(Y, "y") + axis(Z, "z");
  }

  let scene = null;

  function draw() {
    if (!scene) {
      svg.innerHTML = `<text class="faint middle" x="${WIDTH / 2}" y="${HEIGHT / 2}">nothing drawn</text>`;
      return;
    }
    const { right, up, toward } = basis();
    const factor = (0.46 * HEIGHT * view.zoom) / scene.extent.radius;
    const paper = (point) => {
      const from = sub(point, scene.extent.middle);
      return [WIDTH / 2 + factor * dot(from, right), HEIGHT / 2 - factor * dot(from, up)];
    };
    svg.innerHTML =
      scene.bodies.map((body, i) => bodyDrawn(body, i ? "two" : "one", paper, toward, factor)).join("") +
      scene.answers.map((answer, i) => answerDrawn(answer, i, paper, scene)).join("") +
      axesDrawn({ right, up });
  }

  // ---- what is said beside it

  const outcomeTold = (answer) => answer.measured || data.letters[answer.letter][0];

  function answerTold(answer) {
    const [meaning, groups] = data.letters[answer.letter];
    const lines = [`${answer.name ? `${answer.name}: ` : ""}${answer.letter}, ${meaning}`];
    groups.forEach((name, i) => lines.push(`${name} ${answer.words.slice(3 * i, 3 * i + 3).join(" ")}`));
    if (answer.measured) lines.push(answer.measured);
    answer.counts.forEach((count, i) => lines.push(`${data.counts[i]} ${count}`));
    return lines.join("\n");
  }

  function flawOf(scene) {
    if (!scene) return "Nothing is drawn: a number of the shapes or of the pose is not finite.";
    if (scene.answers.some((answer) => !answer.whole)) return "The points or the direction of the answer are not finite, and are not drawn.";
    return "";
  }

  function say(record) {
    const kinds = record.text.split("\n", 2).map((line) => line.split(" ")[0]);
    const told = [...new Set(record.answers.map(outcomeTold))].join(" or ");
    const parts = [`Record ${record.number}: ${kinds.join(" and ")}, ${told}.`, record.note, flawOf(scene)];
    element("said").textContent = parts.filter(Boolean).join(" ");
    element("record").textContent = record.text;
    element("answer").textContent = record.answers.map(answerTold).join("\n\n");
  }

  /** Where the arms of the order map stand: a turn and a place for each link. */
  function moveArms(record) {
    (record.arms || []).forEach(([x, y, degrees], i) => {
      const link = document.querySelector(`.arms [data-link="${i}"]`);
      link.setAttribute("transform", `translate(${x} ${-y}) rotate(${-degrees})`);
      link.classList.toggle("meets", record.links.includes(i));
    });
    document.querySelectorAll(".map a.chosen").forEach((cell) => cell.classList.remove("chosen"));
    document.querySelectorAll(`.map a[href="#record-${record.number}"]`).forEach((cell) => cell.classList.add("chosen"));
  }

  // ---- choosing

  const numbers = [...records.keys()].sort((a, b) => a - b);
  let chosen = data.first;

  function choose(number) {
    element("number").value = number;
    const record = records.get(number);
    if (!record) {
      element("said").textContent = `Record ${number} is not on this page. ${data.missing}`;
      return;
    }
    chosen = number;
    scene = sceneOf(record);
    if (scene) scene.extent = extent(scene);
    view.zoom = 1;
    say(record);
    moveArms(record);
    draw();
  }

  const beside = (step) => {
    const place = numbers.indexOf(chosen) + step;
    if (place >= 0 && place < numbers.length) choose(numbers[place]);
  };
  const turn = (across, up) => {
    view.azimuth -= across;
    view.elevation = Math.max(-Math.PI / 2, Math.min(Math.PI / 2, view.elevation + up));
    draw();
  };
  const zoom = (factor) => {
    view.zoom *= factor;
    draw();
  };

  function follow(hash) {
    const found = /^#record-(\d+)$/.exec(hash);
    if (!found) return;
    choose(Number(found[1]));
    element("choose").scrollIntoView({ block: "start" });
  }

  element("choose").addEventListener("submit", (event) => event.preventDefault());
  element("number").addEventListener("change", (event) => choose(Number(event.target.value)));
  element("previous").addEventListener("click", () => beside(-1));
  element("next").addEventListener("click", () => beside(1));
  document.querySelectorAll("[data-view]").forEach((button) => button.addEventListener("click", () => { look(button.dataset.view); draw(); }));
  document.querySelectorAll("[data-zoom]").forEach((button) => button.addEventListener("click", () => zoom(Number(button.dataset.zoom))));
  svg.addEventListener("pointerdown", (event) => svg.setPointerCapture(event.pointerId));
  svg.addEventListener("pointermove", (event) => { if (event.buttons) turn(0.01 * event.movementX, 0.01 * event.movementY); });
  svg.addEventListener("keydown", (event) => {
    const step = 0.1;
    const turns = { ArrowLeft: [-step, 0], ArrowRight: [step, 0], ArrowUp: [0, -step], ArrowDown: [0, step] };
    if (event.key in turns) turn(...turns[event.key]);
    else if (event.key === "+") zoom(1.25);
    else if (event.key === "-") zoom(0.8);
    else return;
    event.preventDefault();
  });
  // A link to the record of the address bar is no change of address, so links are followed by themselves.
  document.addEventListener("click", (event) => {
    const link = event.target.closest('a[href^="#record-"]');
    if (link) follow(link.getAttribute("href"));
  });
  window.addEventListener("hashchange", () => follow(location.hash));

  look("oblique");
  if (numbers.length) {
    choose(data.first);
    follow(location.hash);
  } else {
    element("said").textContent = "There is no record to draw.";
    draw();
  }
})();
