// The choices stand in the page's address, so that a link has them: #give=a%20pen,ink@2&keep=paper.
//
// A link lasts while the rules change, so it has their names, as encodeURIComponent writes them. Where several rules of the
// file have one name, the rule's place among them stands behind it, and so it does behind a name of digits alone: digits by
// themselves are the number of a rule, as earlier links have it.

const named = new Map();
data.rules.forEach((group, at) => named.set(names.get(group) + "@" + (data.nth[at] || 1), group));
// What the last link named that is not here.
let missing = [];

const encoded = text => encodeURIComponent(text.replace(/\p{Surrogate}/gu, "\ufffd"));

function linkName(group) {
    const nth = data.nth[places.get(group)], whole = names.get(group);
    return encoded(whole) + (nth ? `@${nth}` : /^[0-9]*$/.test(whole) ? "@1" : "");
}

function decoded(text) {
    try {
        return decodeURIComponent(text);
    } catch {
        return text;
    }
}

/** The rule of which a link tells, or undefined. */
function linkedRule(text) {
    if (/^[0-9]+$/.test(text)) return names.has(Number(text)) ? Number(text) : undefined;
    const [front, nth] = text.split("@");
    return named.get(`${decoded(front)}@${nth || 1}`);
}

const address = () => Object.entries(chosen).map(([kind, groups]) => [kind, Array.from(groups).filter(group => !fixed.has(group))])
    .filter(([, groups]) => groups.length).map(([kind, groups]) => `${kind}=${groups.map(linkName).join(",")}`).join("&");

function readAddress() {
    startOver();
    missing = [];
    for (const part of location.hash.slice(1).split("&")) {
        const [kind, words] = part.split("=");
        if (kind !== "give" && kind !== "keep") continue;
        for (const word of (words || "").split(",").filter(it => it)) {
            const group = linkedRule(word);
            if (group === undefined) missing.push(cut(decoded(word)));
            else choose(kind, group, true);
        }
    }
}

function writeAddress() {
    if (location.hash.slice(1) !== address()) history.replaceState(null, "", "#" + address());
}
