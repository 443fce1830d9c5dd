// What codemirror.js uses of CodeMirror 5.65 that its manual does not name. CodeMirror 5 is finished: this is not going to
// change, and an editor that has it otherwise is refused.

/** The changes of the operation under way, in order, each in the coordinates that the one before left. */
export const changesOf = (cm) => cm.curOp?.changeObjs ?? []

/**
 * What the editor keeps of all lines' colours is old: it asks again for a line when it draws it. Nothing that is documented
 * does that without drawing the whole view at each key.
 */
export const dropColours = (cm) => cm.state.modeGen++

/**
 * The editor's work in the background is done: it would run the mode over all lines before the view, 100 ms at a time, to
 * find a state that this mode does not have.
 */
export const endBackgroundWork = (cm) => (cm.doc.highlightFrontier = cm.doc.modeFrontier = cm.lastLine() + 1)

/** The number of the line that a mode is asked about: one without a state is told no other way. */
export const lineOf = (stream) => stream.lineOracle.line

/** Throws a TypeError where an editor lacks one of them. */
export function checkInternals(cm) {
    const there = {
        'curOp.changeObjs': cm.operation?.(() => cm.curOp?.changeObjs) !== undefined,
        'state.modeGen': Number.isInteger(cm.state?.modeGen),
        'doc.highlightFrontier': Number.isInteger(cm.doc?.highlightFrontier),
        'lineOracle.line': cm.constructor.StringStream?.length === 3,
    }
    const missing = Object.keys(there).filter((name) => !there[name])
    if (missing.length) throw new TypeError(`The editor is not one of CodeMirror 5.65: it has no ${missing.join(', no ')}`)
}
