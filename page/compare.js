// The page of `tourkit plot --html` with two tours or solutions: each frame contains the page of one of them. This script highlights the
// legs of each that the other does not have, and keeps the views of both pictures and the selected city the same.
'use strict';
(() => {
const frames = [...document.querySelectorAll('iframe')];
const difference = document.getElementById('difference');

// The legs of closed lines: pairs of cities, and the pair as a number, the same in both directions.
function legsOf(paths, count) {
    const legs = [];
    for (const path of paths) path.forEach((from, i) => {
        const to = path[(i + 1) % path.length];
        legs.push({ from, to, pair: Math.min(from, to) * (count + 1) + Math.max(from, to) });
    });
    return legs;
}

// What a frame contains: its document, the points of the cities, the legs, and the length or the cost.
function planOf(frame) {
    const page = frame.contentDocument;
    const linesOf = id => page.getElementById(id).textContent.trim().split('\n');
    const points = linesOf('cities').map(line => line.slice(0, line.indexOf(' ')));
    const paths = page.getElementById('paths').textContent.trim() === '' ? [] : linesOf('paths').map(line => line.split(' ').map(Number));
    const [, measure, length] = page.getElementById('verdict').textContent.match(/(length|cost) (\d+)/);
    return { page, points, legs: legsOf(paths, points.length), measure, length: Number(length) };
}

// The legs of a plan that another does not have. A leg that is used twice differs once from one that is used once.
function differingLegs(plan, other) {
    const left = new Map();
    for (const { pair } of other.legs) left.set(pair, (left.get(pair) ?? 0) + 1);
    return plan.legs.filter(({ pair }) => {
        const rest = left.get(pair) ?? 0;
        left.set(pair, rest - 1);
        return rest <= 0;
    });
}

// Draws legs below the highlighted route. Without lines in the picture, there are no legs.
function drawLegs({ page, points }, legs) {
    const lit = page.getElementById('lit');
    if (lit === null) return;
    const path = page.createElementNS('http://www.w3.org/2000/svg', 'path');
    path.setAttribute('id', 'differing');
    path.setAttribute('d', legs.map(({ from, to }) => `M${points[from - 1]}L${points[to - 1]}`).join(''));
    lit.before(path);
}

function wordsOfLengths(first, second) {
    const by = second.length - first.length, costs = first.measure === 'cost';
    if (by === 0) return `Both have the same ${first.measure}.`;
    const share = first.length === 0 ? '' : ` (${(100 * Math.abs(by) / first.length).toFixed(2)} %)`;
    if (costs) return `The second costs ${Math.abs(by)} ${by < 0 ? 'less' : 'more'}${share}.`;
    return `The second is ${Math.abs(by)} ${by < 0 ? 'shorter' : 'longer'}${share}.`;
}

function wordsOfLegs(plans, differing) {
    if (differing.every(legs => legs.length === 0)) return 'They have the same legs.';
    const [first, second] = plans.map((plan, i) => `${differing[i].length} of ${plan.legs.length} legs are only in the ${i === 0 ? 'first' : 'second'}`);
    return `${first}, ${second}.`;
}

// A button that highlights the legs that differ, or shows the plans as each page does by itself.
function switchOf(pictures) {
    const button = document.createElement('button');
    button.type = 'button';
    button.append('Differences');
    button.addEventListener('click', () => turn(button.getAttribute('aria-pressed') !== 'true'));
    function turn(on) {
        button.setAttribute('aria-pressed', on);
        for (const picture of pictures) {
            picture.classList.toggle('compared', on);
            picture.querySelector('#differing')?.setAttribute('visibility', on ? 'visible' : 'hidden');
        }
    }
    turn(true);
    return button;
}

// Repeats in one page what another announces.
function lead(from, to) {
    for (const kind of ['view', 'city'])
        from.addEventListener(kind, event => to.dispatchEvent(new CustomEvent(`other-${kind}`, { detail: event.detail })));
}

function compare() {
    const plans = frames.map(planOf);
    const differing = plans.map((plan, i) => differingLegs(plan, plans[1 - i]));
    const stages = plans.map(plan => plan.page.getElementById('stage'));
    plans.forEach((plan, i) => drawLegs(plan, differing[i]));
    for (const { page } of plans) page.body.classList.add('framed');
    difference.append(switchOf(stages.map(stage => stage.querySelector('svg'))), `${wordsOfLengths(...plans)} ${wordsOfLegs(plans, differing)}`);
    stages.forEach((stage, i) => lead(stage, stages[1 - i]));
}

addEventListener('load', compare);
addEventListener('beforeprint', () => {
    for (const frame of frames) frame.style.height = `${frame.contentDocument.documentElement.scrollHeight}px`;
});
addEventListener('afterprint', () => { for (const frame of frames) frame.style.height = ''; });
})();
