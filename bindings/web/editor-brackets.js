// The marks of a wrong bracket in an editor: a wave under it, and dashes around the opener that it meets.
import { TextMark } from './editor-fault.js'

export class BracketMarks {
    #wrong
    #opener

    constructor(cm) {
        this.#wrong = new TextMark(cm, 'sroviemat-wrong-bracket')
        this.#opener = new TextMark(cm, 'sroviemat-met-opener')
    }

    /** Shows a wrong bracket in place of the last, or none. `place`: the editor's position of an offset. */
    show(bracket, place) {
        this.#wrong.show(bracket, place)
        this.#opener.show(bracket?.opener && { ...bracket.opener, message: bracket.message }, place)
    }

    hide() {
        this.show(null)
    }
}
