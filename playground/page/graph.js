// The picture of a graph: each block in layers, from its inputs down to `out`.

const GAP = 16, LAYER = 58, BOX = 26;

// The blocks of a graph's text. A node has its label, the arm that it is in, its sources, and the line of the text that it stands in.
function blocksOf(text) {
  const blocks = [];
  let block = null;
  for (const [at, line] of text.split('\n').entries()) {
    const words = line.split(' '), isOut = words[0] === 'out';
    if (words[0] === 'block') {
      block = { name: words[1], number: blocks.length, nodes: [] };
      for (let it = 0; it < +words[2]; it++) block.nodes.push({ label: `input ${it}`, kind: 'edge', sources: [], line: at + 1 });
      blocks.push(block);
    } else if (words[0] === 'end' || words[0] === 'main') {
      block = null;
    } else if (block) {
      const rest = isOut ? words : words.slice(1), isSource = (it) => /^\d+\.\d+$/.test(it), arm = isOut ? '' : words[0];
      const kind = isOut ? 'edge' : arm.endsWith('+') ? 'true' : /\d-$/.test(arm) ? 'false' : '';
      block.nodes.push({ label: rest.filter((it) => !isSource(it)).join(' '), kind, arm, sources: rest.filter(isSource).map((it) => it.split('.').map(Number)), line: at + 1 });
    }
  }
  return blocks;
}

// Puts each node into the layer after those of its sources, and a point into each layer that an arc passes.
function layersOf(nodes) {
  nodes.forEach((it, at) => {
    it.number = at;
    it.wide = Math.max(46, it.label.length * 7.4 + 20);
    it.layer = Math.max(0, ...it.sources.filter(([from]) => from < at).map(([from]) => nodes[from].layer + 1));
    it.above = [];
    it.below = [];
  });
  const last = Math.max(...nodes.map((it) => it.layer));
  nodes[nodes.length - 1].layer = last;
  const layers = Array.from({ length: last + 1 }, () => []);
  for (const it of nodes) layers[it.layer].push(it);
  const arcs = [];
  for (const to of nodes) {
    to.sources.forEach(([from, port], at) => {
      const way = [nodes[from]];
      for (let layer = nodes[from].layer + 1; layer < to.layer; layer++) {
        const point = { wide: 4, layer, above: [], below: [] };
        layers[layer].push(point);
        way.push(point);
      }
      way.push(to);
      for (let it = 1; it < way.length; it++) {
        way[it].above.push(way[it - 1]);
        way[it - 1].below.push(way[it]);
      }
      arcs.push({ way, port, at });
    });
  }
  return { layers, arcs };
}

// Orders the layers so that few arcs cross, and places the nodes near to what they are joined with.
function place(layers) {
  for (const layer of layers) spread(layer, layer.map((_, at) => at * 60));
  const mean = (list, other) => list.length ? list.reduce((sum, it) => sum + it.x, 0) / list.length : other;
  for (let turn = 0; turn < 12; turn++) {
    const isDown = turn % 2 === 0;
    for (const layer of isDown ? layers : [...layers].reverse()) {
      const wanted = new Map(layer.map((it) => [it, mean(isDown ? it.above : it.below, it.x)]));
      layer.sort((one, other) => wanted.get(one) - wanted.get(other));
      spread(layer, layer.map((it) => wanted.get(it)));
    }
  }
}

// Places a layer as near to the wanted places as its widths allow: neighbours that overlap become a group, which stands at its own middle.
function spread(layer, wanted) {
  const groups = [];
  layer.forEach((it, at) => {
    groups.push({ nodes: [it], wide: it.wide, sum: wanted[at], offset: [0] });
    while (groups.length > 1) {
      const one = groups[groups.length - 2], other = groups[groups.length - 1];
      if (left(one) + one.wide + GAP <= left(other)) break;
      groups.pop();
      one.offset.push(...other.offset.map((it) => it + one.wide + GAP));
      one.nodes.push(...other.nodes);
      one.sum += other.sum;
      one.wide += GAP + other.wide;
    }
  });
  for (const it of groups) it.nodes.forEach((node, at) => { node.x = left(it) + it.offset[at] + node.wide / 2; });
  function left(it) { return it.sum / it.nodes.length - it.wide / 2; }
}

// An element of the picture.
function drawn(name, given, ...inside) {
  const it = document.createElementNS('http://www.w3.org/2000/svg', name);
  for (const [key, value] of Object.entries(given)) it.setAttribute(key, value);
  it.append(...inside);
  return it;
}

// The picture of a block. `goTo` is called with a node that is chosen, `nameOf` gives its place in words, if it has one.
function pictureOf(block, nameOf, goTo) {
  const { layers, arcs } = layersOf(block.nodes);
  place(layers);
  const all = layers.flat(), least = Math.min(...all.map((it) => it.x - it.wide / 2)), most = Math.max(...all.map((it) => it.x + it.wide / 2));
  for (const it of all) { it.x += 12 - least; it.y = it.layer * LAYER + 20; }
  const wide = Math.ceil(most - least) + 24, high = (layers.length - 1) * LAYER + 40;
  const svg = drawn('svg', { viewBox: `0 0 ${wide} ${high}`, width: wide, height: high, role: 'group', 'aria-label': `graph of ${block.name}`, class: 'net' });
  for (const { way, port, at } of arcs) svg.append(...arcOf(way, port, at));
  for (const it of block.nodes) {
    const name = nameOf(it), title = drawn('title', {}, `node ${it.number}: ${it.label}${it.arm && it.arm !== '-' ? `, in arm ${it.arm}` : ''}${name ? `, ${name}` : ''}`);
    const box = drawn('g', { class: `node ${it.kind}`, ...name && { tabindex: 0, role: 'link', 'aria-label': title.textContent } }, title,
      drawn('rect', { x: it.x - it.wide / 2, y: it.y - BOX / 2, width: it.wide, height: BOX, rx: 6 }), drawn('text', { x: it.x, y: it.y + 4.5 }, it.label));
    if (name) {
      box.onclick = () => goTo(it);
      box.onkeydown = (event) => { if (event.key === 'Enter' || event.key === ' ') { event.preventDefault(); goTo(it); } };
    }
    svg.append(box);
  }
  return svg;
}

function arcOf(way, port, at) {
  const from = way[0], to = way[way.length - 1], count = to.sources.length;
  const end = to.x + (at - (count - 1) / 2) * Math.min(18, to.wide / (count + 1));
  let x = from.x, y = from.y + BOX / 2, path = `M${x} ${y}`;
  way.slice(1).forEach((it, step) => {
    const isLast = step === way.length - 2, nextX = isLast ? end : it.x, nextY = isLast ? it.y - BOX / 2 : it.y, bend = (nextY - y) / 2;
    path += `C${x} ${y + bend} ${nextX} ${nextY - bend} ${nextX} ${nextY}`;
    [x, y] = [nextX, nextY];
  });
  const made = [drawn('path', { d: path }), drawn('circle', { cx: end, cy: to.y - BOX / 2, r: 2.5 })];
  if (port) made.push(drawn('text', { x: from.x + 5, y: from.y + BOX / 2 + 11, class: 'port' }, `.${port}`));
  return made;
}
