// The page as a place to decide at: rules are given up or kept, and what then remains is shown at once.
//
// It stands behind page_choices.js, page_address.js and page_sets.js in one function. From the top there come what the choices
// leave and what follows from them, the rules to tick, the corrections, and the conflicts.

const IN_MATRIX = 60, ON_PAPER = 24, BEFORE = 4;

// The matrix of rules and conflicts, and the rules that it has no row for.

const rows = new Map();

function rowOf(group) {
    if (!rows.has(group)) {
        const head = make("th", {scope: "row"}, make("span", {}, name(group)));
        const ticks = ["give", "keep"].map(kind => make("td", {}, tick(kind, group)));
        rows.set(group, make("tr", {}, head, ...ticks, make("td", {class: "n"})));
    }
    return rows.get(group);
}

const heads = () => make("tr", {class: "head"}, ...["rule", "give up", "keep"].map(word => make("th", {scope: "col"}, word)),
                         make("th", {scope: "col", class: "n"}, "conflicts"));
const matrixHead = heads(), matrixRules = data.rules.slice(0, IN_MATRIX), otherRules = data.rules.slice(IN_MATRIX);

/** Has a row's cells behind the first ones be of these columns. What stays as it is isn't touched, since a browser then has less
    to lay out anew. */
function fill(row, tag, columns, textOf) {
    while (row.children.length > BEFORE + columns.length) row.lastChild.remove();
    while (row.children.length < BEFORE + columns.length) row.append(make(tag, tag === "th" ? {scope: "col"} : {}));
    let cell = row.children[BEFORE];
    columns.forEach((column, place) => {
        const text = textOf(column), kind = (column.isMended ? "mended " : "") + (place >= ON_PAPER ? "beyond" : "");
        if (cell.textContent !== text) cell.textContent = text;
        if (cell.className !== kind) cell.className = kind;
        if (tag === "th") cell.setAttribute("aria-label", `conflict ${column.at + 1}${column.isMended ? ", mended" : ""}`);
        cell = cell.nextSibling;
    });
}

function drawMatrix(now) {
    const remain = new Set(now.remaining);
    const shown = (data.conflicts.length <= IN_MATRIX ? data.conflicts.map((_, at) => at) : now.remaining).slice(0, IN_MATRIX);
    const columns = shown.map(at => ({at, isMended: !remain.has(at), members: new Set(data.conflicts[at])}));
    fill(matrixHead, "th", columns, column => `${column.at + 1}${column.isMended ? "\u2713" : ""}`);
    for (const group of matrixRules) {
        const mark = isGiven(group) ? "\u25cb" : "\u25cf";
        fill(rowOf(group), "td", columns, column => column.members.has(group) ? mark : "");
    }
}

/** Has the rows and boxes that are shown say what is chosen, and in how many conflicts their rules still are. */
function drawRows(now) {
    for (const [group, row] of rows) {
        row.className = isGiven(group) ? "given" : isKept(group) ? "kept" : "";
        const all = inConflicts[places.get(group)], some = now.inRemaining[places.get(group)];
        row.children[BEFORE - 1].textContent = some === all ? `${all}` : `${some} of ${all}`;
    }
    drawChoices(document);
    conflictItems.forEach(drawChoices);
}

// The rules of which a part of the name is known.

const others = new Listing("tbody", "rules", rowOf);
const search = make("input", {type: "search", id: "search"}), found = make("span", {id: "found", role: "status"});
const otherPart = make("details", {}, make("summary", {}, `The other ${otherRules.length} rules`),
                       make("table", {class: "matrix"}, make("thead", {}, heads()), others.element), others.more);

/** Shows the rules with this part in their names, or all. */
function find() {
    const wanted = search.value.trim().toLowerCase(), has = group => names.get(group).toLowerCase().includes(wanted);
    for (const group of matrixRules) rowOf(group).hidden = !has(group);
    const left = otherRules.filter(has), count = matrixRules.filter(has).length + left.length;
    found.textContent = wanted ? counted(count, "rule has it.", "rules have it.") : "";
    if (wanted && left.length) otherPart.open = true;
    others.show(left);
    drawRows(outcome());
}

search.addEventListener("input", find);
others.more.addEventListener("click", () => drawRows(outcome()));
otherPart.addEventListener("toggle", () => { if (otherPart.open && !others.ids) find(); });

function matrixNote() {
    const some = [];
    if (otherRules.length) some.push(`the ${IN_MATRIX} rules in most conflicts`);
    if (data.conflicts.length > IN_MATRIX) some.push(`the first ${IN_MATRIX} conflicts that remain`);
    return (some.length ? `The table has ${some.join(" and ")}. ` : "")
        + "\u25cf is a rule in a conflict, \u25cb one that is given up, \u2713 a conflict that is mended.";
}

// What follows from the choices.

const FOLLOWS = [
    ["go", data.complete ? "Has to go" : "Has to go, as far as was found", "Each correction that fits gives these up."],
    ["stay", "Can stay", "No correction that fits gives these up."],
    ["free", "Free", "Some corrections that fit give these up, and others don\u2019t."],
];
const followLists = Object.fromEntries(FOLLOWS.map(([kind, heading]) => [
    kind, new Listing("ul", `rules: ${heading}`, group => make("li", {}, name(group)))]));
const followHeads = Object.fromEntries(FOLLOWS.map(([kind]) => [kind, make("h3", {})]));
const followParts = Object.fromEntries(FOLLOWS.map(([kind, , meaning]) => [
    kind, make("section", {id: `follows-${kind}`}, followHeads[kind], make("p", {class: "pale"}, meaning), ...followLists[kind].parts)]));
const followPart = make("div", {id: "follows"}, ...Object.values(followParts));

function drawFollows(now) {
    const lists = follows(now);
    for (const [kind, heading] of FOLLOWS) {
        followHeads[kind].textContent = `${heading}: ${lists[kind].length}`;
        followLists[kind].show(lists[kind]);
        followParts[kind].hidden = !lists[kind].length;
    }
    followPart.hidden = !chosen.give.size && !chosen.keep.size;
}

// The page.

const conflicts = new Listing("ol", "conflicts", conflictItem), corrections = new Listing("ol", "corrections", correctionItem);
const told = Object.fromEntries(["verdict", "fit", "conflictsHead", "correctionsHead"].map(id => [id, make("span", {id})]));
const outcomePart = make("div", {id: "outcome", role: "status", tabindex: "-1"}, make("p", {}, told.verdict, " ", told.fit));
const missingPart = make("p", {id: "missing", role: "alert"});
const chosenParts = {give: make("div", {class: "chosen"}), keep: make("div", {class: "chosen"})};
const startAgain = button("Start again", "start again", () => { missing = []; startOver(); show(); });
startAgain.className = "again";

function drawChosen() {
    const heads = [["give", "Given up:", "give up no longer"], ["keep", "To be kept:", "keep no longer"]];
    for (const [kind, text, label] of heads) {
        chosenParts[kind].replaceChildren(text, ...Array.from(chosen[kind], group => fixed.has(group) ? make("span", {}, name(group)) : button(
            `${name(group)} \u00d7`, `${label}: ${name(group)}`, () => { choose(kind, group, false); show(); })));
        chosenParts[kind].hidden = !chosen[kind].size;
    }
    startAgain.hidden = !isChosen();
    missingPart.textContent = missing.length ? `This link names rules that are no more, or in no set: ${missing.slice(0, AT_FIRST).join("; ")}`
        + (missing.length > AT_FIRST ? ` and ${missing.length - AT_FIRST} more.` : ".") : "";
    missingPart.hidden = !missing.length;
}

/** Shows what the choices leave. The keyboard's place goes to the verdict where what had it is gone. */
function show() {
    const now = outcome(), [kind, text] = verdict(now), before = document.activeElement || document.body;
    const ofAll = sets => `${sets.length}${data.complete ? "" : " that were found"}`;
    told.verdict.textContent = text;
    told.verdict.className = kind;
    told.fit.textContent = fitLine(now);
    told.conflictsHead.textContent = `Conflicts that remain: ${now.remaining.length} of ${ofAll(data.conflicts)}`;
    told.correctionsHead.textContent = (now.isClean ? `Corrections that are given up: ${now.givenUp.length}`
                                        : `Corrections that fit: ${now.fitting.length}`) + ` of ${ofAll(data.corrections)}`;
    drawChosen();
    drawFollows(now);
    drawMatrix(now);
    conflicts.show(now.remaining);
    corrections.show(now.isClean ? now.givenUp : now.fitting);
    drawRows(now);
    const isThere = before.isConnected && !before.closest("[hidden]");
    if (before !== document.body && !(isThere && before === document.activeElement)) {
        (isThere ? before : outcomePart).focus({preventScroll: true});
    }
    writeAddress();
}

/** A part of the page to which a link on top leads. */
function partOf(what, head, about, listing) {
    return make("section", {class: "screen sets", id: `here-${what}`, "aria-labelledby": head.id},
                make("h2", {tabindex: "-1"}, head), make("p", {}, about), ...listing.parts);
}

function layOut() {
    const lightest = data.weights ? "least weight" : "fewest rules", are = data.weights ? "is" : "are";
    document.getElementById("decide").append(
        make("p", {}, "Tick the rules that you would give up, and those that are to be kept. What then remains is shown at "
             + "once, and the page\u2019s address keeps your choices."),
        missingPart, outcomePart, chosenParts.give, chosenParts.keep, startAgain, followPart,
        make("p", {class: "find"}, make("label", {for: "search"}, "Find rules by a part of the name "), search, " ", found),
        make("div", {class: "scroll", role: "region", tabindex: "0", "aria-label": "rules and conflicts"},
             make("table", {class: "matrix"}, make("thead", {}, matrixHead), make("tbody", {}, ...matrixRules.map(rowOf)))),
        ...(otherRules.length ? [otherPart] : []),
        partOf("corrections", told.correctionsHead, "Give up the rules of one correction, and all others fit together. A correction fits "
               + `if none of its rules is to be kept. The first ones have the ${lightest} that ${are} still to be given up. ${data.unseen}`,
               corrections),
        partOf("conflicts", told.conflictsHead, "Not all rules of a conflict can be kept. It is mended if one of them is given up.", conflicts),
        make("p", {class: "pale"}, matrixNote() + " " + data.others));
}

/** Leads to a part of this page, whose address has the choices alone. */
function lead(event) {
    const link = event.target.closest("a[data-to]");
    if (!link) return;
    event.preventDefault();
    const head = document.querySelector(`#here-${link.dataset.to} > h2`);
    head.scrollIntoView();
    head.focus({preventScroll: true});
}

// On paper each list is whole.

function paper() {
    const now = outcome();
    const lines = (sets, places) => {
        const list = make("ol", {});
        for (const at of places) {
            list.append(make("li", {value: at + 1}, listed(sets[at]), ...(sets === data.corrections ? leftParts(at) : [])));
        }
        return list;
    };
    const table = otherRules.length ? [document.querySelector("#plain table").cloneNode(true)] : [];
    return [...table,
            make("h2", {}, told.correctionsHead.textContent),
            lines(data.corrections, now.isClean ? now.givenUp : now.fitting),
            make("h2", {}, told.conflictsHead.textContent), lines(data.conflicts, now.remaining)];
}

const printed = document.getElementById("printed");
addEventListener("beforeprint", () => printed.replaceChildren(...paper()));
addEventListener("afterprint", () => printed.replaceChildren());
addEventListener("hashchange", () => { readAddress(); show(); });
document.addEventListener("click", lead);
document.addEventListener("change", event => {
    const box = event.target.dataset;
    if (box.kind) { choose(box.kind, Number(box.group), event.target.checked); show(); }
});
layOut();
readAddress();
show();
