// What is chosen, and what that leaves. Nothing here touches what the page shows.
//
// Conflicts and corrections are lists of groups, those of few rules first, and each is known by its place in its list. Two
// facts carry all that is said. A conflict is mended if one of its rules is given up. A correction fits if none of its rules
// is to be kept; and once all of its rules are given up, all others fit together, whatever the report may lack.
//
// A choice is answered by one walk over all sets, so they stand in arrays of numbers, as the places of their rules.

const LONG = 120, FREE = 0, GIVEN = 1, KEPT = 2;
const data = JSON.parse(document.getElementById("data").textContent);
const names = new Map(data.rules.map((group, at) => [group, data.names[at]]));
const places = new Map(data.rules.map((group, at) => [group, at]));
// Rules that are never given up are kept from the beginning, whatever else is chosen.
const fixed = new Set(data.kept), weights = Float64Array.from(data.rules, (_, at) => data.weights ? data.weights[at] : 1);
const chosen = {give: new Set(), keep: new Set(fixed)};

const isGiven = group => chosen.give.has(group);
const isKept = group => chosen.keep.has(group);
// A cut within a pair of code units would leave half a letter.
const cut = name => name.length <= LONG ? name : name.slice(0, LONG - 1).replace(/[\ud800-\udbff]$/, "") + "\u2026";
const name = group => cut(names.get(group));
const listed = groups => groups.map(name).join("; ");
const counted = (count, one, many) => `${count} ${count === 1 ? one : many}`;
const weightOf = groups => groups.reduce((sum, group) => sum + weights[places.get(group)], 0);

/** The rules of sets as places, one set behind the other, and where each set begins. */
function flat(sets) {
    const begins = new Int32Array(sets.length + 1);
    sets.forEach((set, at) => { begins[at + 1] = begins[at] + set.length; });
    const rules = new Int32Array(begins[sets.length]);
    sets.forEach((set, at) => set.forEach((group, place) => { rules[begins[at] + place] = places.get(group); }));
    return {begins, rules, count: sets.length};
}

/** In how many of these sets each rule is. */
function countedIn(sets) {
    const counts = new Int32Array(data.rules.length);
    for (const rule of sets.rules) counts[rule]++;
    return counts;
}

const conflictRules = flat(data.conflicts), correctionRules = flat(data.corrections);
const inConflicts = countedIn(conflictRules), inCorrections = countedIn(correctionRules);

function startOver() {
    chosen.give.clear();
    chosen.keep = new Set(fixed);
}

const isChosen = () => chosen.give.size > 0 || chosen.keep.size > fixed.size;

function choose(kind, group, isOn) {
    if (fixed.has(group)) return;
    chosen[kind][isOn ? "add" : "delete"](group);
    if (isOn) chosen[kind === "give" ? "keep" : "give"].delete(group);
}

/** The names that hold where this correction is given up; null if that is not known, undefined if the page would be too long. */
function leftBy(at) {
    if (!data.left) return null;
    const digits = data.left.sets[at];
    return digits && data.left.names.filter((_, place) => parseInt(digits[place >> 2] || "0", 16) >> (place & 3) & 1);
}

// What the choices leave.

function states() {
    const state = new Uint8Array(data.rules.length);
    for (const group of chosen.give) state[places.get(group)] = GIVEN;
    for (const group of chosen.keep) state[places.get(group)] = KEPT;
    return state;
}

/** The conflicts that remain, in how many of them each rule is, and the first one all of whose rules are to be kept. */
function lookAtConflicts(state) {
    const {begins, rules, count} = conflictRules, remaining = [], inRemaining = new Int32Array(data.rules.length);
    let keptClash;
    for (let at = 0; at < count; at++) {
        let isMended = false, areKept = true;
        for (let place = begins[at]; place < begins[at + 1]; place++) {
            isMended ||= state[rules[place]] === GIVEN;
            areKept &&= state[rules[place]] === KEPT;
        }
        if (isMended) continue;
        remaining.push(at);
        for (let place = begins[at]; place < begins[at + 1]; place++) inRemaining[rules[place]]++;
        if (areKept) keptClash ??= at;
    }
    return {remaining, inRemaining, keptClash};
}

/** The corrections that are given up, those that fit, how many rules and what weight each has left, and in how many that fit
    each rule is. */
function lookAtCorrections(state) {
    const {begins, rules, count} = correctionRules, fits = [], givenUp = [], inFitting = new Int32Array(data.rules.length);
    const left = new Int32Array(count), weight = new Float64Array(count);
    for (let at = 0; at < count; at++) {
        let isWanted = false;
        for (let place = begins[at]; place < begins[at + 1]; place++) {
            const rule = rules[place];
            isWanted ||= state[rule] === KEPT;
            if (state[rule] !== GIVEN) { left[at]++; weight[at] += weights[rule]; }
        }
        if (!left[at]) givenUp.push(at);
        if (isWanted) continue;
        fits.push(at);
        for (let place = begins[at]; place < begins[at + 1]; place++) inFitting[rules[place]]++;
    }
    return {givenUp, fitting: ordered(ordered(fits, left), weight), left, weight, inFitting};
}

/** These places by a number that each has, and else as they stand. */
function ordered(found, numbers) {
    const greatest = found.reduce((most, at) => Math.max(most, numbers[at]), 0);
    if ((greatest + 1) * found.length > Number.MAX_SAFE_INTEGER) return found.sort((one, other) => numbers[one] - numbers[other]);
    // numbers alone are sorted many times as fast as by a comparison
    const keys = Float64Array.from(found, (at, place) => numbers[at] * found.length + place).sort();
    return Array.from(keys, key => found[key % found.length]);
}

function outcome() {
    const state = states(), now = {...lookAtConflicts(state), ...lookAtCorrections(state)};
    const best = now.fitting[0];
    return {...now, state, isClean: now.givenUp.length > 0, least: now.left[best], lightest: now.weight[best]};
}

/** Of the rules that corrections give up, and that are neither given up nor to be kept: those that each fitting correction gives
    up, those that none does, and the others. If nothing has to be given up any more, or nothing fits, nothing follows. */
function follows(now) {
    const found = {go: [], stay: [], free: []};
    if (now.isClean || !now.fitting.length) return found;
    data.rules.forEach((group, at) => {
        if (now.state[at] !== FREE || !(inCorrections[at] || inConflicts[at])) return;
        const count = now.inFitting[at];
        found[count === now.fitting.length ? "go" : count ? "free" : "stay"].push(group);
    });
    return found;
}

function verdict(now) {
    if (now.isClean) return ["good", "Nothing clashes any more: all other rules fit together."];
    if (now.keptClash !== undefined) {
        return ["bad", `All rules of conflict ${now.keptClash + 1} are to be kept. One of them has to be given up.`];
    }
    const others = data.complete ? "" : " Others may exist.";
    if (!now.remaining.length) return ["", "No conflict that was found remains." + others];
    return ["", counted(now.remaining.length, "conflict remains.", "conflicts remain.") + others];
}

function fitLine(now) {
    if (now.isClean) {
        const smallest = now.givenUp[0], spare = chosen.give.size - data.corrections[smallest].length;
        return spare ? `You give up ${counted(spare, "rule", "rules")} more than correction ${smallest + 1} does.` : "";
    }
    const found = data.complete ? "" : " that was found";
    if (now.fitting.length) {
        return counted(now.fitting.length, "correction", "corrections") + (data.complete ? "" : " of those that were found")
            + (now.fitting.length === 1 ? " fits." : " fit.")
            + (data.weights ? ` The one of the least weight${found}, ${now.lightest}, gives up ` : ` The smallest${found} gives up `)
            + counted(now.least, "rule", "rules") + (chosen.give.size ? " more." : ".");
    }
    return data.complete || now.keptClash !== undefined ? "No correction fits." : "No correction that was found fits.";
}
