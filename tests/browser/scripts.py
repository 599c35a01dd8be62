"""What runs in the page to see what it shows."""

# What a view shows; everything in it is opened first.
GATHER = """
window.texts = (selector, from = document.getElementById("main")) =>
    Array.from(from.querySelectorAll(selector), (found) => found.textContent);
// The spellings of the variables of a list; each has its spelling as a title.
window.spelled = (node) => Array.from(node.querySelectorAll(".formula"), (one) =>
    (one.querySelector("[title]") ?? one).title || one.textContent);
window.gather = async (hash, label) => {
    const wait = () => new Promise((resume) => setTimeout(resume, 0));
    const main = document.getElementById("main");
    if (window.location.hash !== hash) window.location.hash = hash;
    for (let turn = 0; main.querySelector("h1")?.textContent !== label; turn++) {
        if (turn > 4000) return { h1: main.querySelector("h1")?.textContent };
        await wait();
    }
    // Nothing is laid out meanwhile: that takes long where there are a hundred thousand links.
    main.style.display = "none";
    for (let again = true; again; ) {
        again = false;
        for (const fold of main.querySelectorAll("details")) {
            if (!fold.open || fold.children.length === 1) again = fold.open = true;
        }
        for (const button of main.querySelectorAll("button.more")) {
            button.click();
            again = true;
        }
        await wait();
    }
    const comment = main.querySelector("#comment")?.cloneNode(true);
    for (const part of comment?.querySelectorAll(".formula, .credits") ?? []) part.remove();
    const stars = main.querySelector("#stars");
    const dummies = main.querySelector("#dummies");
    const shown = {
        h1: label,
        title: document.title,
        kind: main.querySelector(".title .kind")?.textContent ?? "",
        formula: main.querySelector("#statement .formula")?.textContent,
        hypotheses: Array.from(main.querySelectorAll(".hypotheses li"), (line) => [
            line.querySelector(".label").textContent,
            line.querySelector(".formula").textContent,
        ]),
        groups: Array.from(main.querySelectorAll("#mandatory-groups li"), spelled),
        dummies: dummies ? spelled(dummies) : null,
        stars: stars ? Array.from(stars.children, spelled) : null,
        comment: comment?.textContent ?? "",
        credits: texts(".credits li"),
        discouraged: texts(".discouragements li"),
        place: main.querySelector("#place")?.textContent ?? "",
        chapters: Array.from(main.querySelectorAll("#place a"), (one) => one.getAttribute("href")),
        rests: Array.from(main.querySelectorAll("#rests-on details"), (fold) => [
            fold.dataset.group,
            Array.from(fold.querySelectorAll("li.line"), (line) => [
                line.querySelector("a").textContent,
                line.querySelector(".said").textContent,
                line.querySelector("a").getAttribute("href"),
                line.querySelector(".distinct") !== null,
            ]),
        ]),
        neighbours: Array.from(main.querySelectorAll(".neighbours a"), (link) => [
            link.rel, link.textContent, link.getAttribute("href"),
            link.getAttribute("aria-label")]),
        glance: texts("#glance strong"),
        avoids: texts("#avoids ul a"),
        cites: texts("#cites li > a"),
        citedBy: texts("#cited-by ul a"),
        headings: texts("h2"),
        usersList: texts("#users .chapters ul a"),
        verdict: main.querySelector("#verdict")?.textContent ?? "",
        fallen: texts("#fallen .chapters ul a"),
        left: texts("#left .chapters ul a"),
        states: texts("#states li > a"),
        comingIn: Array.from(main.querySelectorAll("#coming-in li.line"), (line) =>
            Array.from(line.querySelectorAll("a"), (link) => link.textContent)),
        shares: Array.from(main.querySelectorAll("#shares li.line"), (line) =>
            [line.querySelector("a").textContent, Number(line.dataset.users)]),
        lower: Array.from(main.querySelectorAll("#lower > ul > li"), (line) =>
            line.querySelector(".chapter-number").textContent),
        found: texts(".found li > a"),
        told: main.querySelector("#found-told")?.textContent ?? "",
        since: main.querySelector("#since")?.textContent ?? "",
        text: main.textContent,
    };
    main.style.display = "";
    return shown;
};
window.why = async (label) => {
    const asks = Array.from(document.querySelectorAll(".ask"));
    const button = asks.find((one) => one.getAttribute("aria-label") === `Why ${label}?`);
    button.click();
    const place = document.getElementById(button.getAttribute("aria-controls"));
    const chain = Array.from(place.querySelectorAll("ol li > a"), (link) =>
        [link.textContent, link.getAttribute("href")]);
    button.click();
    return [chain, place.childElementCount];
};
window.searchReady = async () => {
    const input = document.getElementById("search");
    input.focus();
    for (let turn = 0; input.dataset.ready !== "whole"; turn++) {
        if (turn > 2000) return false;
        await new Promise((resume) => setTimeout(resume, 10));
    }
    return true;
};
"""

# The least contrast of a text with what is behind it.
CONTRAST = """
const parse = (text) => {
    const numbers = text.match(/[\\d.]+/g).map(Number);
    return { rgb: numbers.slice(0, 3), alpha: numbers.length > 3 ? numbers[3] : 1 };
};
const light = (rgb) => {
    const [red, green, blue] = rgb.map((value) => {
        const share = value / 255;
        return share <= 0.04045 ? share / 12.92 : ((share + 0.055) / 1.055) ** 2.4;
    });
    return 0.2126 * red + 0.7152 * green + 0.0722 * blue;
};
const ground = (node) => {
    for (let at = node; at; at = at.parentElement) {
        const { rgb, alpha } = parse(getComputedStyle(at).backgroundColor);
        if (alpha === 1) return rgb;
    }
    return [255, 255, 255];
};
const isShown = (node) => node.checkVisibility() && node.getClientRects().length > 0;
const walker = document.createTreeWalker(document.body, NodeFilter.SHOW_TEXT);
let worst = { ratio: 21, text: "" };
let seen = 0;
while (walker.nextNode()) {
    const node = walker.currentNode;
    const parent = node.parentElement;
    if (!node.data.trim() || !isShown(parent)) continue;
    if (parent.closest("script, style, noscript, .hidden, option")) continue;
    const one = light(parse(getComputedStyle(parent).color).rgb);
    const other = light(ground(parent));
    const ratio = (Math.max(one, other) + 0.05) / (Math.min(one, other) + 0.05);
    seen++;
    const text = `${parent.tagName}.${parent.className} ${node.data.slice(0, 40)}`;
    if (ratio < worst.ratio) worst = { ratio, text };
}
return { ...worst, seen, ground: light(ground(document.body)) };
"""

# Controls that are smaller than 24 by 24 dots; links in text, and boxes with a label, aside.
TARGETS = """
const small = [];
for (const node of document.querySelectorAll("button, select, input, summary")) {
    if (node.type === "checkbox" || !node.checkVisibility()) continue;
    const box = node.getBoundingClientRect();
    if (box.width > 0 && (box.width < 24 || box.height < 24)) {
        small.push([node.tagName, node.className, Math.round(box.width), Math.round(box.height)]);
    }
}
return small;
"""

# Labels of at most twenty letters that are broken at the end of a line; DOCUMENT is the page's.
BROKEN_LABELS = """
const page = DOCUMENT;
const parts = Array.from(page.querySelectorAll(".label"), (one) => {
    const range = page.createRange();
    range.selectNodeContents(one);
    const tops = Array.from(range.getClientRects(), (box) => Math.round(box.top / 4));
    return [one.textContent, new Set(tops).size];
});
const wrong = parts.filter(([label, lines]) => label.length <= 20 && lines > 1);
return [parts.filter(([, lines]) => lines > 0).length, wrong.map(([label]) => label)];
"""

# What is missing for who doesn't see: names of controls, parts of the page, unique ids, headings.
NAMES = """
const wrong = [];
const named = (node) => (node.getAttribute("aria-label") ?? node.textContent).trim() !== "" ||
    document.getElementById(node.getAttribute("aria-labelledby") ?? "none")?.textContent.trim() ||
    Array.from(node.labels ?? []).some((label) => label.textContent.trim() !== "");
for (const node of document.querySelectorAll(
    "a, button, input, select, summary, [role='region'], [role='application'], nav, section")) {
    if (named(node)) continue;
    wrong.push(node.outerHTML.slice(0, 120));
}
for (const name of ["header", "main", "footer", "[role='search']"]) {
    if (document.querySelectorAll(name).length !== 1) wrong.push(`one ${name}`);
}
const ids = Array.from(document.querySelectorAll("[id]"), (one) => one.id);
wrong.push(...ids.filter((id, at) => ids.indexOf(id) !== at).map((id) => `twice ${id}`));
for (const node of document.querySelectorAll("[aria-controls], [aria-describedby]")) {
    for (const key of ["aria-controls", "aria-describedby"]) {
        const id = node.getAttribute(key);
        if (id && !document.getElementById(id)) wrong.push(`${key} ${id}`);
    }
}
if (document.querySelectorAll("h1").length !== 1) wrong.push("one h1");
if (!document.documentElement.lang) wrong.push("lang");
let level = 1;
for (const heading of document.querySelectorAll("h1, h2, h3, h4")) {
    const own = Number(heading.tagName[1]);
    if (own > level + 1) wrong.push(`heading ${heading.textContent}`);
    level = own;
}
return wrong;
"""
