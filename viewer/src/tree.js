// Combining trees, the serial order of their leaves, and both as `ultra explain` and `ultra order`
// write them.
(function (viewer) {
    "use strict";

    const { act, operationText, answerText } = viewer;

    /**
     * @param {Tree} tree
     * @returns {tree is KnownPair}
     */
    function isPair(tree) {
        return "old" in tree;
    }

    /** A request's name: its PE, and its number among the requests of that PE, if that is known. */
    function nameOf(request) {
        return `${request.pe}.${request.number ?? "?"}`;
    }

    /**
     * The leaves of a tree in serial order. A tree is at most as high as there are stages.
     * @param {Tree} tree
     * @returns {KnownRequest[]}
     */
    function leavesOf(tree) {
        if (!isPair(tree)) {
            return [tree];
        }
        const order = tree.isOldFirst ? [tree.old, tree.later] : [tree.later, tree.old];
        return order.flatMap(leavesOf);
    }

    /**
     * @param {Tree} tree
     * @returns {number}
     */
    function heightOf(tree) {
        return isPair(tree) ? 1 + Math.max(heightOf(tree.old), heightOf(tree.later)) : 0;
    }

    /**
     * The tree that a request or a pair is in by the end of the cycle.
     * @param {Tree} tree
     * @param {number} cycle
     */
    function treeAt(tree, cycle) {
        let found = tree;
        while (found.parent && found.parent.cycle <= cycle) {
            found = found.parent;
        }
        return found;
    }

    /**
     * The act that served a request, or null.
     * @param {KnownRequest} request
     */
    function actOf(request) {
        return treeAt(request, Infinity).act;
    }

    /**
     * The leaf whose PE and cell a combined request bears.
     * @param {Tree} tree
     * @returns {KnownRequest}
     */
    function bearerOf(tree) {
        return isPair(tree) ? bearerOf(tree.old) : tree;
    }

    function treeText(tree) {
        if (!isPair(tree)) {
            return nameOf(tree);
        }
        const place = `s${tree.stage}x${tree.position}`;
        return `[${place} ${treeText(tree.old)} ${tree.isOldFirst ? "<" : ">"} ${treeText(tree.later)}]`;
    }

    /** @param {KnownAct} found */
    function explanationOf(found) {
        return `cycle ${found.cycle} module ${found.module} cell ${found.cell} ${treeText(found.tree)}`;
    }

    /**
     * The requests of an act in their serial order, each with its reply, from acting on the cell
     * one by one. Where an operation isn't known, a reply is the answer that the PE got.
     */
    function replay(found) {
        const leaves = leavesOf(found.tree);
        if (leaves.some((it) => it.kind === null)) {
            const replyOf = (it) => (it.answered === null ? undefined : it.value);
            return leaves.map((request) => ({ request, reply: replyOf(request), now: undefined }));
        }
        let value = found.value ?? 0;
        return leavesOf(found.tree).map((request) => {
            const { now, reply } = act(request, value);
            value = now;
            return { request, reply, now };
        });
    }

    function orderLine({ request, reply }) {
        const [word, ...rest] = operationText(request).split(" ");
        return `${nameOf(request)} ${[word, request.cell, ...rest].join(" ")} = ${answerText(reply)}`;
    }

    function linesOf(list) {
        return list.map((it) => `${it}\n`).join("");
    }

    /** The text of `ultra explain`. */
    function explainText(history) {
        return linesOf(history.acts.map(explanationOf));
    }

    /** The text of `ultra order`. */
    function orderText(history) {
        return linesOf(history.acts.flatMap((it) => replay(it).map(orderLine)));
    }

    Object.assign(viewer, { isPair, nameOf, leavesOf, heightOf, treeAt, actOf, bearerOf });
    Object.assign(viewer, { explanationOf, replay, orderLine, explainText, orderText });
})((globalThis.viewer ??= {}));
