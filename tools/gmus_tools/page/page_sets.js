// The sets and their rules as elements. Of a long list that part is made that is looked at.
//
// Text from the file goes into the page as text nodes, and never as markup.

const AT_FIRST = 20, MORE = 100;
const WORDS = {give: "give up", keep: "keep"};

/** An element with these attributes, and these texts and elements in it. */
function make(tag, attributes, ...inside) {
    const element = document.createElement(tag);
    for (const [key, value] of Object.entries(attributes)) element.setAttribute(key, value);
    element.append(...inside);
    return element;
}

function button(text, label, act) {
    const element = make("button", {type: "button", "aria-label": label}, text);
    element.addEventListener("click", act);
    return element;
}

/** A box that is ticked if the rule is given up, or if it is to be kept. */
function tick(kind, group) {
    const box = make("input", {type: "checkbox", "data-kind": kind, "data-group": group,
                               "aria-label": `${WORDS[kind]}: ${name(group)}`});
    box.checked = chosen[kind].has(group);
    box.disabled = fixed.has(group);
    return box;
}

const labelled = (kind, group) => make("label", {class: "choice"}, tick(kind, group), " " + WORDS[kind]);

/** A list of which the first items are made, and a button that makes more. */
class Listing {
    constructor(tag, what, itemOf) {
        this.element = make(tag, {});
        this.more = button("", "", () => this.drawMore());
        this.what = what;
        this.itemOf = itemOf;
        this.count = AT_FIRST;
        this.parts = [this.element, this.more];
    }

    show(ids) {
        this.ids = ids;
        this.draw();
    }

    draw() {
        const left = this.ids.length - this.count;
        this.element.replaceChildren();
        for (const id of this.ids.slice(0, this.count)) this.element.append(this.itemOf(id));
        this.more.hidden = left <= 0;
        this.more.textContent = `Show ${Math.min(left, MORE)} of ${left} more`;
        this.more.setAttribute("aria-label", `${this.more.textContent} ${this.what}`);
    }

    /** Makes more, and goes to the first one of these. */
    drawMore() {
        const before = this.count;
        this.count += MORE;
        this.draw();
        const first = this.element.children[before];
        first.setAttribute("tabindex", "-1");
        first.focus();
    }
}

function listOf(groups, what, itemOf) {
    const listing = new Listing("ul", what, itemOf);
    listing.show(groups);
    return listing.parts;
}

/** The name of a rule; a long one opens to the whole of it. */
function nameOf(group) {
    const whole = names.get(group);
    if (cut(whole) === whole) return make("span", {}, whole);
    return make("details", {}, make("summary", {}, cut(whole)), whole);
}

const markOf = group => isKept(group) ? "to be kept" : isGiven(group) ? "given up" : "";

const ruleItem = group => make("li", {}, make("div", {class: "rule"}, nameOf(group), make("span", {},
    make("span", {class: "mark", "data-group": group}, markOf(group)), labelled("give", group), labelled("keep", group))));

/** Has the boxes and marks of rules in there say what is chosen. */
function drawChoices(inside) {
    for (const box of inside.querySelectorAll("input[data-kind]")) box.checked = chosen[box.dataset.kind].has(Number(box.dataset.group));
    for (const mark of inside.querySelectorAll(".mark")) mark.textContent = markOf(Number(mark.dataset.group));
}

// Conflicts, with the lines on which they rest.

/** Puts a text on the clipboard, and tells what became of it. If the page may not write there the text is selected, and copied as
    by hand if that is allowed. */
async function copy(text, element) {
    try {
        await navigator.clipboard.writeText(text);
        return "Copied";
    } catch {
        getSelection().selectAllChildren(element);
        return document.execCommand("copy") ? "Copied" : "Selected";
    }
}

function lineItem(line) {
    const text = make("span", {}, line);
    const act = button("Copy", `copy: ${line}`, async () => {
        act.textContent = await copy(line, text);
        act.setAttribute("aria-label", `${act.textContent}: ${line}`);
    });
    act.className = "copy";
    return make("dd", {}, text, " ", act);
}

function whyParts(at) {
    const reasons = data.reasons[at] || [];
    if (!reasons.length) return [];
    const part = make("details", {class: "why"}, make("summary", {"aria-label": `Why conflict ${at + 1} is one`}, "Why"));
    part.addEventListener("toggle", () => {
        if (part.children.length > 1) return;
        part.append(make("dl", {}, ...reasons.flatMap(([rule, lines]) => [
            make("dt", {}, cut(rule === null ? "always" : rule)), ...lines.map(line => lineItem(data.lines[line]))])));
    });
    return [part];
}

const conflictItems = new Map();

function conflictItem(at) {
    if (!conflictItems.has(at)) {
        const rules = listOf(data.conflicts[at], `rules of conflict ${at + 1}`, ruleItem);
        const alone = data.conflicts[at].length === 1 ? ["It can't be kept, whatever else is given up."] : [];
        conflictItems.set(at, make("li", {value: at + 1}, ...rules, ...alone, ...whyParts(at)));
    }
    return conflictItems.get(at);
}

// Corrections, with what they leave.

const LEFT = "Left, for example: ";

/** The configuration that a correction leaves; a long one is folded. */
function leftParts(at) {
    const left = leftBy(at);
    if (left === null) return [];
    if (left === undefined) return [make("div", {class: "pale"}, "What it leaves is too long for this page. tools/names.py tells it.")];
    const listed = names => names.join(", ") || "nothing that has a name";
    if (left.length <= AT_FIRST) return [make("div", {class: "pale left"}, LEFT + listed(left))];
    const some = `${LEFT}${listed(left.slice(0, AT_FIRST))} and ${left.length - AT_FIRST} more`;
    return [make("details", {class: "left"}, make("summary", {}, some), make("div", {class: "pale"}, listed(left)))];
}

function correctionItem(at) {
    const rest = data.corrections[at].filter(group => !isGiven(group)), done = data.corrections[at].filter(isGiven);
    const item = make("li", {value: at + 1});
    if (rest.length === 1) {
        item.append(`Giving up ${name(rest[0])} ${chosen.give.size ? "besides" : "alone"} mends all. `);
    } else if (rest.length) {
        item.append(...listOf(rest, `rules of correction ${at + 1}`, group => make("li", {}, name(group))));
    }
    if (data.weights) item.append(make("div", {class: "pale"}, `Weight: ${weightOf(rest)}`));
    if (done.length) item.append(make("div", {class: "pale"}, `Given up already: ${listed(done.slice(0, AT_FIRST))}`
                                      + (done.length > AT_FIRST ? ` and ${done.length - AT_FIRST} more.` : ".")));
    item.append(...leftParts(at));
    if (rest.length) {
        item.append(button(rest.length === 1 ? "Give it up" : "Give these up", `give up correction ${at + 1}`,
                           () => { rest.forEach(group => choose("give", group, true)); show(); }));
    }
    return item;
}
