// What the parts of the page share.

/** What a screen reader calls the editor. */
export const LABEL = 'Recipe text'

/** Where the style sheet has no room for words in the gutter. */
export const NARROW = '(max-width: 40rem)'

export const get = (id) => document.getElementById(id)

/** An element with a class and a text. */
export const element = (name, className = '', text = '') => Object.assign(document.createElement(name), { className, textContent: text })

/** Only other words are written, so that the browser lays out nothing twice. */
export function write(place, words) {
    if (place.textContent !== words) place.textContent = words
}

/** A number with its thousands apart. */
export const grouped = (number) => number.toLocaleString('en')

/** A record's line, which is from 0, as people count. */
export const fromOne = (line) => line + 1

/** Says something above the recipe. Where it is a question, `answer` has the words of a button and what that does. */
export function notice(words, answer = null) {
    get('notice-words').textContent = words
    get('answer').textContent = answer?.words ?? ''
    get('answer').onclick = answer?.work ?? null
    get('answer').hidden = !answer
    get('notice').hidden = get('close').hidden = false
}

export const hideNotice = () => (get('notice').hidden = true)

/** Calls `work` after a pause, which begins again when it is asked for again. `now` calls it at once where it is due. */
export function afterPause(milliseconds, work) {
    let due = 0
    const run = () => {
        clearTimeout(due)
        due = 0
        work()
    }
    const ask = () => {
        clearTimeout(due)
        due = setTimeout(run, milliseconds)
    }
    ask.isDue = () => due !== 0
    ask.now = () => ask.isDue() && run()
    return ask
}
