// What trials/browser asks of a page that it has opened.

// Colours of texts and strokes on what is behind them; grid lines mean nothing.
function colours() {
    const seen = new Map();
    const behind = one => {
        for (; one; one = one.parentElement) {
            const colour = getComputedStyle(one).backgroundColor;
            if (colour !== 'rgba(0, 0, 0, 0)') return colour;
        }
        return 'rgb(255, 255, 255)';
    };
    const add = (kind, one, colour, what) => {
        const key = [kind, colour, behind(one)].join('|');
        if (!seen.has(key)) seen.set(key, what);
    };
    for (const one of document.querySelectorAll('body *')) {
        const style = getComputedStyle(one);
        if (one.tagName === 'path') {
            if (!one.matches('.v')) add('mark', one, style.stroke, 'path.' + one.getAttribute('class'));
        } else if (one.tagName === 'use') {
            if (one.matches('[href="#x"]')) add('text', one, style.fill, 'labels of the axis');
        } else if (!one.closest('defs, title')
                && [...one.childNodes].some(part => part.nodeType === 3 && part.data.trim())) {
            add('text', one, style.color, one.tagName + ' ' + one.textContent.slice(0, 30));
        }
    }
    return [...seen].map(([key, what]) => [...key.split('|'), what]);
}

// Elements that stick out of the window to the right, and texts of which something is cut off.
function outside() {
    const root = document.documentElement, width = root.clientWidth;
    const parts = [...document.querySelectorAll('main *')].filter(one => !one.closest('svg'));
    const name = one => one.tagName + ' ' + one.textContent.slice(0, 40);
    return {
        wider: root.scrollWidth - width,
        outside: parts.filter(one => one.getBoundingClientRect().right > width + 1).map(name).slice(0, 3),
        cut: parts.filter(one => one.matches('li, li > div, summary') && one.scrollWidth > one.clientWidth + 1)
            .map(name).slice(0, 3)
    };
}

// The texts of each row that is laid out.
function rows() {
    return [...document.querySelectorAll('details[open] li')].map(row =>
        [...row.querySelectorAll('div bdi, div small, div p, div code')].map(one => one.textContent));
}

// The element that has the focus, whether one sees that, and whether it heads an open group.
function focused() {
    const one = document.activeElement, style = getComputedStyle(one);
    return [one.tagName, style.outlineStyle !== 'none' && parseFloat(style.outlineWidth) > 0,
            one.parentElement ? one.parentElement.open === true : false];
}
