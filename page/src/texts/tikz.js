// A picture as TikZ for a paper: of the elements of an SVG picture those that pictures of this page have.

// A point of a paper has 4/3 pixels.
const POINTS = .75;
const SPECIAL = {
    '\\': '\\textbackslash{}',
    '~': '\\textasciitilde{}',
    '^': '\\textasciicircum{}',
    '…': '\\dots{}',
    '→': '$\\to$',
    '′': '$\'$',
    '·': '$\\cdot$',
    '‹': '$\\langle$',
    '›': '$\\rangle$',
};

// A text of one line; the power in `O^2` is raised.
export const texText = text => text.replace(
    /\^(\d+)|[\\~^…→′·‹›{}$&#%_]/g, (letter, power) => power ? `\\textsuperscript{${power}}` : SPECIAL[letter] || `\\${letter}`);

const short = number => String(Math.round(number * 100) / 100);
const point = (x, y) => `(${short(x)},${short(y)})`;
const classesOf = node => (node.getAttribute('class') || '').split(' ');
const valuesOf = (node, ...names) => names.map(name => Number(node.getAttribute(name) || 0));

// `M x y` and then cubic curves `C`, quadratic ones `Q`, or lines `L`.
function pathOf(d, [left, top]) {
    const words = d.split(/[\s,]+/).filter(Boolean), parts = [];
    let at = [0, 0], next = 0;
    const take = () => [Number(words[next++]) + left, Number(words[next++]) + top];
    while (next < words.length) {
        const command = words[next++], towards = (a, b, part) => a.map((n, axis) => n + (b[axis] - n) * part);
        if (command === 'C') {
            const [first, second, end] = [take(), take(), take()];
            parts.push(`.. controls ${point(...first)} and ${point(...second)} .. ${point(...end)}`);
            at = end;
        } else if (command === 'Q') {
            const [middle, end] = [take(), take()];
            parts.push(
                `.. controls ${point(...towards(at, middle, 2 / 3))} and ${point(...towards(end, middle, 2 / 3))} .. ${point(...end)}`);
            at = end;
        } else {
            at = take();
            parts.push(`${command === 'L' ? '-- ' : ''}${point(...at)}`);
        }
    }
    return parts.join(' ');
}

// The words of a text without those of titles in it.
const shownIn = node => [...node.childNodes]
                            .filter(child => child.tagName !== 'title')
                            .map(child => child.tagName ? shownIn(child) : child.textContent)
                            .join('');

const ANCHORS = {
    middle: 'base',
    end: 'base east'
};
// A font of a node stands in place of that of all nodes.
const FONTS = {
    small: '\\scriptsize',
    output: '\\footnotesize\\bfseries',
    given: '\\footnotesize\\itshape',
    heading: '\\footnotesize\\bfseries'
};
const SHAPES = {
    rect(node, [left, top]) {
        const [x, y, width, height, round] = valuesOf(node, 'x', 'y', 'width', 'height', 'rx'),
                                    options = [round && `rounded corners=${short(round * POINTS)}pt`, 'fill=white'].filter(Boolean);
        return `\\draw[${options.join(', ')}] ${point(left + x, top + y)} rectangle ${point(left + x + width, top + y + height)};`;
    },
    circle(node, [left, top]) {
        const [x, y, radius] = valuesOf(node, 'cx', 'cy', 'r');
        return `\\draw[fill=black!15] ${point(left + x, top + y)} circle[radius=${short(radius * POINTS)}pt];`;
    },
    line(node, [left, top]) {
        const [x, y, toX, toY] = valuesOf(node, 'x1', 'y1', 'x2', 'y2');
        return `\\draw ${point(left + x, top + y)} -- ${point(left + toX, top + toY)};`;
    },
    path: (node, place) => classesOf(node).includes('near') ? '' : `\\draw ${pathOf(node.getAttribute('d'), place)};`,
    polygon(node, [left, top]) {
        const corners = node.getAttribute('points').split(' ').map(corner => corner.split(',').map(Number));
        return `\\fill ${corners.map(([x, y]) => point(left + x, top + y)).join(' -- ')} -- cycle;`;
    },
    text(node, [left, top]) {
        const [x, y] = valuesOf(node, 'x', 'y'), anchor = ANCHORS[node.getAttribute('text-anchor')] || 'base west',
                  font = classesOf(node).map(name => FONTS[name]).filter(Boolean).join('');
        return `\\node[anchor=${anchor}${font ? `, font=\\sffamily${font}` : ''}] at ${point(left + x, top + y)} {${
            texText(shownIn(node))}};`;
    },
};

// What stands in an element, moved by its place.
function drawnIn(node, [left, top]) {
    return [...node.childNodes].flatMap(child => {
        if (child.tagName === 'g') {
            const [, x = 0, y = 0] = /^translate\(([-\d.]+)[ ,]([-\d.]+)\)$/.exec(child.getAttribute('transform') || '') || [];
            return drawnIn(child, [left + Number(x), top + Number(y)]);
        }
        return SHAPES[child.tagName]?.(child, [left, top]) || [];
    });
}

// It needs the package tikz alone.
export function tikzOf(picture) {
    const scaled = `x=${POINTS}pt, y=-${POINTS}pt`;
    return [
        '% Drawn by the re workbench; it needs \\usepackage{tikz}.',
        `\\begin{tikzpicture}[${scaled}, every node/.style={inner sep=0pt, font=\\sffamily\\footnotesize}]`, ...drawnIn(picture, [0, 0]),
        '\\end{tikzpicture}', ''
    ].join('\n');
}
