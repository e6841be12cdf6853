'use strict';
// Reads the trace that stands in the page, lays its steps out along the lanes, and draws the part that is in view.

const ROW = 14;            // the height of a step
const HEADING = 22;        // the height of the heading of an epoch
const GUTTER = 205;        // the room for the lines of the trace, left of the lanes
const MARGIN = 140;        // the room for what the coordinator does, right of the lanes
const LEAST_GAP = 46;      // between two lanes
const MOST_OPEN = 3000;    // a trace with more steps opens folded, except for the epochs in which something fails
const MOST_LISTED = 500;   // steps or items in the panel
const ITEM_HEADS = {
  gather: ['vertex', 'sum'], update: ['vertex', 'value', 'wakes'], signal: ['vertex'], call: ['vertex'], ask: ['vertex'],
  grant: ['vertex', 'in', 'out', 'master', 'holders', 'value', 'due'],
};
const FATES = {
  taken: 'taken', late: 'taken, after a batch that was sent later', stale: 'stale: its epoch had passed',
  down: 'lost: the receiver was down', dropped: 'dropped', flying: 'never delivered',
};

// Reading

function readStep(line, number) {
  const step = {number, line, kind: 'idle', places: []};
  if (line.startsWith('delivered ')) return readDelivery(step);
  const words = line.split(' ');
  if (words[words.length - 1] === 'idle') return step;
  const numbers = words.filter(word => /^\d+$/.test(word)).map(Number);
  if (words[0] === 'work') {
    Object.assign(step, {kind: words[2], place: numbers[0], stage: words[3]});
    if (step.kind === 'send') Object.assign(step, {serial: numbers[1], stage: words[4], receiver: numbers[2]});
  } else if (words[0] === 'dropped') Object.assign(step, {kind: 'dropped', serial: numbers[0]});
  else if (words[0] === 'crash') Object.assign(step, {kind: 'crash', place: numbers[0]});
  else if (words[0] === 'barrier') Object.assign(step, {kind: words[1], numbers});
  else Object.assign(step, {kind: words[1] === 'lost' ? 'lost' : words[0], numbers, places: numbers.slice(1)});
  return step;
}

function readDelivery(step) {
  const head = /^delivered (\d+) from (\d+) to (\d+) epoch (\d+) round (\d+) (\w+) (\w+)/.exec(step.line);
  const [serial, sender, receiver, epoch, round] = head.slice(1, 6).map(Number);
  return Object.assign(step, {
    kind: 'delivered', serial, sender, receiver, epoch, round, stage: head[6], fate: head[7], items: step.line.slice(head[0].length),
  });
}

function readRun(text) {
  const steps = text ? text.split('\n').map((line, at) => readStep(line, at + 1)) : [];
  let places = 1;
  for (const step of steps) places = Math.max(places, (step.place ?? 0) + 1, (step.receiver ?? 0) + 1, (step.sender ?? 0) + 1);
  const run = {steps, places, batches: readBatches(steps), sections: readSections(steps)};
  run.lanes = readLanes(run);
  return run;
}

function readBatches(steps) {
  const batches = new Map();
  let latest = -1;
  steps.forEach((step, at) => {
    if (step.kind === 'send') {
      batches.set(step.serial, {serial: step.serial, stage: step.stage, sender: step.place, receiver: step.receiver, sent: at, fate: 'flying', items: ''});
    }
    const batch = batches.get(step.serial);
    if (step.kind === 'delivered' && batch) {
      const late = step.fate === 'taken' && step.serial < latest;
      Object.assign(batch, {ended: at, fate: late ? 'late' : step.fate, items: step.items, epoch: step.epoch, round: step.round});
      latest = Math.max(latest, step.serial);
    }
    if (step.kind === 'dropped' && batch) Object.assign(batch, {ended: at, fate: 'dropped'});
  });
  return batches;
}

// A section is the steps of one epoch; its last step is the one that raises the epoch.
function readSections(steps) {
  const sections = [];
  let mode = 'running', epoch = 0, round = 1, first = 0;
  const close = end => {
    if (end > first) sections.push(Object.assign({first, end, epoch, mode, round}, contents(steps, first, end)));
    first = end;
  };
  steps.forEach((step, at) => {
    const next = modeAfter(step, mode);
    if (!next) return;
    close(at + 1);
    if (step.kind === 'committed') round = step.numbers[1] + 1;
    epoch = step.kind === 'recover' || step.kind === 'repair' || step.kind === 'discard' ? step.numbers[0] : epoch + 1;
    mode = next;
  });
  close(steps.length);
  const long = steps.length > MOST_OPEN;
  for (const section of sections) section.folded = long && section.first > 0 && section.mode === 'running' && !section.crashes.length;
  return sections;
}

function modeAfter(step, mode) {
  if (step.kind === 'committed') return 'running';
  if (step.kind === 'failed') return 'failed';
  if (step.kind === 'recover') return 'recovery';
  if (step.kind === 'repair') return 'repair';
  if (step.kind === 'discard') return mode === 'recovery' ? 'failed' : 'running';
  return null;
}

function contents(steps, first, end) {
  const found = {batches: 0, full: 0, crashes: []};
  for (let at = first; at < end; at++) {
    const step = steps[at];
    if (step.kind === 'send') found.batches++;
    if (step.kind === 'delivered' && step.items) found.full++;
    if (step.kind === 'crash') found.crashes.push(step.place);
  }
  return found;
}

// The stretches of each place, in which its machine is up or down.
function readLanes(run) {
  const lanes = [], since = new Array(run.places).fill(0), up = new Array(run.places).fill(true);
  let reborn = [], mode = 'running';
  const turn = (place, at, now) => {
    if (up[place] === now) return;
    lanes.push({place, from: since[place], to: at, up: up[place]});
    since[place] = at;
    up[place] = now;
  };
  run.steps.forEach((step, at) => {
    if (step.kind === 'crash') turn(step.place, at, false);
    if (step.kind === 'failed' || (step.kind === 'discard' && mode === 'recovery')) reborn.forEach(place => turn(place, at, false));
    if (modeAfter(step, mode)) reborn = [];
    mode = modeAfter(step, mode) ?? mode;
    if (step.kind === 'recover') reborn = step.places;
    if (step.kind === 'recover') reborn.forEach(place => turn(place, at, true));
    step.up = modeAfter(step, mode) ? up.slice() : null;
  });
  for (let place = 0; place < run.places; place++) lanes.push({place, from: since[place], to: run.steps.length, up: up[place]});
  return lanes;
}

// Laying out

function layOut(run) {
  const width = document.getElementById('view').clientWidth;
  const gap = Math.max(LEAST_GAP, (width - GUTTER - MARGIN - 20) / run.places);
  const plan = {gap, width: GUTTER + gap * run.places + MARGIN, at: new Float64Array(run.steps.length + 1)};
  let y = 4;
  for (const section of run.sections) {
    section.top = y;
    y += HEADING;
    for (let at = section.first; at < section.end; at++) {
      plan.at[at] = section.folded ? section.top + HEADING / 2 : y + ROW / 2;
      if (!section.folded) y += ROW;
    }
    section.bottom = y;
  }
  plan.at[run.steps.length] = y;
  plan.height = y + 20;
  return plan;
}

const laneX = place => GUTTER + plan.gap * (place + 0.5);

// The section of a step, found by halving.
function sectionOf(at) {
  let low = 0, high = run.sections.length - 1;
  while (low < high) {
    const middle = (low + high + 1) >> 1;
    if (run.sections[middle].first <= at) low = middle; else high = middle - 1;
  }
  return run.sections[low];
}

// Drawing

function draw() {
  const view = document.getElementById('view'), svg = document.getElementById('picture');
  const from = view.scrollTop - view.clientHeight / 2, to = view.scrollTop + view.clientHeight * 1.5;
  const sections = run.sections.filter(section => section.bottom >= from && section.top <= to);
  const pieces = [...sections.map(shade), ...run.lanes.map(lane => drawLane(lane, from, to)), ...sections.map(heading)];
  for (const section of sections) {
    if (section.folded) continue;
    const begin = section.first + Math.max(0, Math.floor((from - section.top - HEADING) / ROW));
    const end = Math.min(section.end, section.first + Math.ceil((to - section.top) / ROW));
    for (let at = begin; at < end; at++) pieces.push(drawStep(run.steps[at], at));
  }
  const empty = [], full = [];
  for (const batch of run.batches.values()) {
    const top = plan.at[batch.sent], bottom = plan.at[batch.ended ?? run.steps.length];
    if (bottom >= from && top <= to && isShown(batch)) (batch.items ? full : empty).push(arrow(batch));
  }
  svg.innerHTML = [...pieces, ...empty, ...full].join('');
}

// A batch is not drawn if it begins and ends inside one folded epoch.
function isShown(batch) {
  const sender = sectionOf(batch.sent), receiver = batch.ended === undefined ? null : sectionOf(batch.ended);
  return !sender.folded || (sender !== receiver && receiver !== null && !receiver.folded);
}

function shade(section) {
  const odd = section.epoch % 2 ? 'odd' : '';
  return `<rect class="shade ${odd} ${section.mode}" x="0" y="${section.top}" width="${plan.width}" height="${section.bottom - section.top}"/>`;
}

function heading(section) {
  const what = section.mode === 'running' ? `round ${section.round}` : section.mode === 'failed' ? 'after a failure' : section.mode;
  const crashes = section.crashes.map(place => `, place ${place} crashes`).join('');
  const last = run.steps[section.end - 1], ends = section.folded && modeAfter(last, section.mode) ? `; ends with: ${last.line}` : '';
  const text = `${section.folded ? '▸' : '▾'} epoch ${section.epoch}: ${what}, ${count(section.end - section.first, 'step')}, `
    + `${count(section.batches, 'batch')} sent, ${section.full} with items${crashes}${ends}`;
  return `<g class="heading" data-section="${run.sections.indexOf(section)}"><rect x="0" y="${section.top}" width="${plan.width}" height="${HEADING - 2}"/>`
    + `<text x="8" y="${section.top + 14}">${text}</text></g>`;
}

function count(number, noun) {
  return `${number} ${noun}${number === 1 ? '' : noun.endsWith('h') ? 'es' : 's'}`;
}

function drawLane(lane, from, to) {
  const top = Math.max(plan.at[lane.from] - (lane.from ? 0 : 30), from), bottom = Math.min(plan.at[lane.to], to), x = laneX(lane.place);
  return bottom > top ? `<line class="lane ${lane.up ? 'up' : 'down'}" x1="${x}" y1="${top}" x2="${x}" y2="${bottom}"/>` : '';
}

function drawStep(step, at) {
  const y = plan.at[at], brief = step.kind === 'delivered' ? `delivered ${step.serial}, ${step.stage} ${step.fate}` : step.line.replace(/ round .*/, '');
  const text = `<text class="number" x="40" y="${y + 3}" text-anchor="end">${step.number}</text><text x="48" y="${y + 3}">${brief.slice(0, 32)}</text>`;
  if (step.numbers) return text + across(step, y);
  if (step.place === undefined || step.kind === 'send') return text;
  return text + mark(step, at, laneX(step.place), y);
}

function mark(step, at, x, y) {
  const head = `class="mark ${step.kind} ${step.stage ?? ''}" data-step="${at}"`;
  if (step.kind === 'crash') {
    return `<path ${head} d="M${x - 6} ${y - 6}l12 12m0 -12l-12 12"/><text class="said crash" x="${x + 11}" y="${y + 4}">crash</text>`;
  }
  if (step.kind === 'compute') return `<rect ${head} x="${x - 5}" y="${y - 5}" width="10" height="10"/>`;
  if (step.kind === 'ready') return `<path ${head} d="M${x - 6} ${y + 5}h12l-6 -10z"/>`;
  if (step.kind === 'append') return `<rect ${head} x="${x - 7}" y="${y - 4}" width="14" height="8" rx="4"/>`;
  return `<circle ${head} cx="${x}" cy="${y}" r="3.5"/>`;
}

// What the coordinator does is a line across; in a recovery or a repair the places that take part have a mark.
function across(step, y) {
  const pieces = [`<line class="across ${step.kind}" x1="${GUTTER - 20}" x2="${plan.width}" y1="${y}" y2="${y}" data-step="${step.number - 1}"/>`];
  if (step.kind === 'recover' || step.kind === 'repair') {
    for (let place = 0; place < run.places; place++) {
      if (!step.up[place]) continue;
      const x = laneX(place), reborn = step.places.includes(place), size = reborn ? 8 : 5;
      pieces.push(`<path class="mark ${reborn ? 'reborn' : step.kind}" data-step="${step.number - 1}" d="M${x - size} ${y}l${size} ${-size}l${size} ${size}l${-size} ${size}z"/>`);
      if (reborn) pieces.push(`<text class="said reborn" x="${x + 12}" y="${y + 12}">reborn</text>`);
    }
  }
  pieces.push(`<text class="said ${step.kind}" x="${plan.width - MARGIN}" y="${y - 3}">${said(step, sectionOf(step.number - 1))}</text>`);
  return pieces.join('');
}

function said(step, section) {
  const [first, second, third] = step.numbers;
  if (step.kind === 'committed') return section.mode === 'running' ? `round ${second} ends, ${third} due` : `${section.mode} ends, ${third} due`;
  if (step.kind === 'failed') return `failed: ${count(step.numbers.length, 'place')}`;
  if (step.kind === 'notready') return `place ${first} is not ready`;
  if (step.kind === 'lost') return `${first} lost`;
  if (step.kind === 'recover') return step.places.length ? `recovery, ${step.places.length} reborn` : 'recovery';
  return step.kind === 'repair' ? 'repair' : 'discarded';
}

function arrow(batch) {
  const x1 = laneX(batch.sender), y1 = plan.at[batch.sent], y2 = plan.at[batch.ended ?? run.steps.length];
  const part = batch.fate === 'dropped' ? 0.6 : 1, x2 = x1 + (laneX(batch.receiver) - x1) * part;
  const classes = [batch.stage, batch.fate, batch.items && 'full', batch === kept && 'kept', found.has(batch.ended) && 'found'].filter(Boolean).join(' ');
  return `<g class="arrow ${classes}" data-serial="${batch.serial}">${shaft(x1, y1, x2, y2)}${point(batch, x1, y1, x2, y2)}</g>`;
}

function shaft(x1, y1, x2, y2) {
  const way = `d="M${x1} ${y1}L${x2.toFixed(1)} ${y2}"`;
  return `<path class="hit" ${way}/><path class="line" ${way}/>`;
}

// The end of an arrow: a head if the batch was taken, a cross if it was not.
function point(batch, x1, y1, x2, y2) {
  if (batch.fate === 'flying') return '';
  if (batch.fate === 'down' || batch.fate === 'dropped' || batch.fate === 'stale') return `<path class="cross" d="M${x2 - 4} ${y2 - 4}l8 8m0 -8l-8 8"/>`;
  const length = Math.hypot(x2 - x1, y2 - y1) || 1, along = [(x2 - x1) / length, (y2 - y1) / length];
  const back = [x2 - along[0] * 8, y2 - along[1] * 8], side = [-along[1] * 4, along[0] * 4];
  const corner = sign => `${(back[0] + sign * side[0]).toFixed(1)} ${(back[1] + sign * side[1]).toFixed(1)}`;
  return `<path class="head" d="M${x2} ${y2}L${corner(1)}L${corner(-1)}z"/>`;
}

// The panel

const panel = lines => { document.getElementById('panel').innerHTML = lines.join(''); };

function showBatch(batch) {
  const items = batch.items.split(' ').filter(Boolean), more = items.length && items[items.length - 1].startsWith('+') ? items.pop().slice(1) : 0;
  const ended = batch.ended === undefined ? '' : `, ended at line ${run.steps[batch.ended].number}`;
  const lines = [`<h2>Batch ${batch.serial}: ${batch.stage}</h2><p>from place ${batch.sender} to place ${batch.receiver}</p>`,
    `<p>sent at line ${run.steps[batch.sent].number}${ended}</p><p>${FATES[batch.fate]}</p>`];
  if (batch.epoch !== undefined) lines.push(`<p>epoch ${batch.epoch}, after ${count(batch.round, 'round')}</p><p>${items.length ? '' : 'no items'}</p>`);
  else lines.push('<p>The trace shows the items of a batch at its delivery.</p>');
  if (items.length) lines.push(itemTable(ITEM_HEADS[batch.stage] ?? [], items));
  const hidden = Number(more) + Math.max(0, items.length - MOST_LISTED);
  if (hidden) lines.push(`<p>and ${count(hidden, 'further item')}</p>`);
  panel(lines);
}

function itemTable(heads, items) {
  const row = (cells, tag) => `<tr>${cells.map(cell => `<${tag}>${cell}</${tag}>`).join('')}</tr>`;
  return `<table>${row(heads, 'th')}${items.slice(0, MOST_LISTED).map(item => row(item.split(':'), 'td')).join('')}</table>`;
}

function showStep(step) {
  panel([`<h2>Line ${step.number}</h2><p><code>${step.line}</code></p>`]);
}

// Searching

function search(vertex) {
  found = new Set();
  kept = null;
  pinned = /^\d+$/.test(vertex);
  if (pinned) {
    sought = String(BigInt(vertex));
    run.steps.forEach((step, at) => { if (step.items && itemOf(step)) found.add(at); });
    showFound();
  }
  draw();
}

// The item of the vertex that is sought, in the batch that a step delivers.
function itemOf(step) {
  const first = step.items.indexOf(` ${sought}:`), at = first < 0 ? `${step.items} `.indexOf(` ${sought} `) : first;
  return at < 0 ? '' : step.items.slice(at + 1).split(' ', 1)[0];
}

function showFound() {
  const rows = [...found].slice(0, MOST_LISTED).map(at => {
    const step = run.steps[at];
    return `<li data-goto="${at}">line ${step.number}: ${step.stage} ${step.sender} → ${step.receiver}, ${step.fate}: <b>${itemOf(step)}</b></li>`;
  });
  const more = found.size > MOST_LISTED ? `<p>and ${found.size - MOST_LISTED} further steps</p>` : '';
  panel([`<h2>Vertex ${sought}: ${count(found.size, 'step')}</h2><ol>${rows.join('')}</ol>${more}`]);
}

function goTo(at) {
  const view = document.getElementById('view');
  sectionOf(at).folded = false;
  refresh();
  view.scrollTop = plan.at[at] - view.clientHeight / 2;
  draw();
}

// What the reader does

function refresh() {
  plan = layOut(run);
  const svg = document.getElementById('picture');
  svg.setAttribute('width', plan.width);
  svg.setAttribute('height', plan.height);
  const names = Array.from({length: run.places}, (_, place) => `<span style="left:${laneX(place)}px">${plan.gap < 64 ? place : `place ${place}`}</span>`);
  document.getElementById('names').innerHTML = names.join('');
  document.getElementById('names').style.width = `${plan.width}px`;
  draw();
}

function foldAll(folded) {
  for (const section of run.sections) section.folded = folded;
  refresh();
}

function pointAt(event) {
  const target = event.target.closest('[data-serial], [data-step]');
  if (target && !pinned) show(target);
}

function clickOn(event) {
  const target = event.target.closest('[data-serial], [data-step], [data-section]');
  if (target?.dataset.section !== undefined) {
    const section = run.sections[target.dataset.section];
    section.folded = !section.folded;
    return refresh();
  }
  kept = target ? run.batches.get(Number(target.dataset.serial)) ?? null : null;
  pinned = target !== null || found.size > 0;
  if (target) show(target); else if (found.size) showFound();
  draw();
}

function show(target) {
  const batch = run.batches.get(Number(target.dataset.serial));
  if (batch) showBatch(batch); else showStep(run.steps[target.dataset.step]);
}

function listen() {
  const svg = document.getElementById('picture'), view = document.getElementById('view');
  svg.addEventListener('mouseover', pointAt);
  svg.addEventListener('click', clickOn);
  view.addEventListener('scroll', () => requestAnimationFrame(draw));
  window.addEventListener('resize', refresh);
  document.getElementById('vertex').addEventListener('input', event => search(event.target.value.trim()));
  document.getElementById('open-all').addEventListener('click', () => foldAll(false));
  document.getElementById('fold-all').addEventListener('click', () => foldAll(true));
  document.getElementById('panel').addEventListener('click', event => {
    const row = event.target.closest('[data-goto]');
    if (row) goTo(Number(row.dataset.goto));
  });
}

function showSummary() {
  const times = kind => run.steps.filter(step => step.kind === kind).length;
  document.getElementById('summary').textContent = `${count(run.places, 'place')}, ${count(run.steps.length, 'step')}, `
    + `${count(run.batches.size, 'batch')}, ${count(times('committed'), 'commit')}, ${count(times('crash'), 'crash')}.`
    + (run.steps.length > MOST_OPEN ? ' Rounds in which nothing fails are folded; a click on a heading opens one.' : '');
  const sample = (name, classes) => `<span><svg><g class="arrow ${classes}"><path class="line" d="M1 6L33 6"/></g></svg>${name}</span>`;
  const stages = Object.keys(ITEM_HEADS).map(stage => sample(stage, `${stage} taken full`));
  const fates = [['late', 'late'], ['stale', 'stale'], ['dropped', 'dropped'], ['lost, receiver down', 'down'], ['never delivered', 'flying']];
  document.getElementById('legend').innerHTML = [...stages, ...fates.map(([name, fate]) => sample(name, `update full ${fate}`)),
    '<span>thin: no items</span>', '<span>■ computes</span>', '<span>● installs or adopts</span>', '<span>▲ ready</span>'].join('');
}

let plan;                                       // where everything stands
let kept = null, pinned = false;                // the arrow that was clicked on; whether the panel keeps what it shows
let sought = '', found = new Set();             // the vertex that is searched for, and the steps that mention it
const run = readRun(document.getElementById('trace').textContent);
showSummary();
listen();
refresh();
document.documentElement.dataset.openedAfter = Math.round(performance.now());
