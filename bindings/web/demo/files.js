// Files: the text of one for the editor, and what brings it back as it was.

/** A file that the page does not take: the message says why. `asLatin1` opens it after all, or is null. */
export class CannotOpen extends Error {
    name = 'CannotOpen'

    constructor(message, asLatin1 = null) {
        super(message)
        this.asLatin1 = asLatin1
    }
}

const MARK = '\ufeff'
const NAMES = { '\n': 'LF', '\r\n': 'CR LF', '\r': 'CR' }
/** A comment on one of the first two lines that tells Python another encoding than UTF-8. */
const CODING = /^(.*(\r\n|\r|\n))?[ \t\f]*#.*coding[:=][ \t]*(?!utf-?8)[-\w.]/i

/**
 * A file's text with LF alone, its line ends, whether a byte order mark stood before it, and a warning or ''.
 * `faultIn` says what is wrong with bytes that are no UTF-8; `most` is the most bytes that are taken.
 */
export async function openFile(file, { most, faultIn }) {
    if (file.size > most) throw new CannotOpen(`“${file.name}” has ${file.size.toLocaleString('en')} bytes, and the reader takes up to ${most.toLocaleString('en')}. It was not opened.`)
    const bytes = new Uint8Array(await file.arrayBuffer())
    const text = decoded(bytes)
    if (text !== null) return opened(file.name, text)
    const fault = faultIn(bytes)
    if (!fault) throw new CannotOpen(`“${file.name}” is not UTF-8 text and was not opened.`)
    throw new CannotOpen(`“${file.name}” was not opened. ${fault.message}`, fault.latin1 && (() => openedAsLatin1(file.name, bytes)))
}

function decoded(bytes) {
    try {
        return new TextDecoder('utf-8', { fatal: true, ignoreBOM: true }).decode(bytes)
    } catch {
        return null
    }
}

function opened(title, whole) {
    const mark = whole.startsWith(MARK)
    const text = mark ? whole.slice(1) : whole
    const { ends, mixed } = lineEnds(text)
    const warning = mixed ? `“${title}” mixes line ends. It is saved with ${NAMES[ends]} throughout, its most frequent one.` : ''
    return { title, text: text.replace(/\r\n?/g, '\n'), ends, mark, warning }
}

/** Latin-1 is to browsers what Windows made of it, with quotation marks and dashes between 80 and 9F. */
function openedAsLatin1(title, bytes) {
    const text = new TextDecoder('latin1').decode(bytes)
    const { warning, ...others } = opened(title, text)
    const coding = CODING.test(text) ? ' Take out its comment that names another encoding.' : ''
    return { ...others, warning: `“${title}” was read as Latin-1 and is saved as UTF-8.${coding} ${warning}`.trim() }
}

/** The most frequent line end, and whether there are others. */
function lineEnds(text) {
    const counts = { '\n': 0, '\r\n': 0, '\r': 0 }
    for (const [end] of text.matchAll(/\r\n?|\n/g)) counts[end]++
    const [ends] = Object.entries(counts).reduce((a, b) => (b[1] > a[1] ? b : a))
    return { ends, mixed: Object.values(counts).filter(Boolean).length > 1 }
}

/** The text as a file has it. */
export const asFile = ({ text, ends, mark }) => (mark ? MARK : '') + (ends === '\n' ? text : text.replaceAll('\n', ends))

/** Hands a recipe to the browser as a file. */
export function saveFile(recipe) {
    const link = document.createElement('a')
    link.href = URL.createObjectURL(new Blob([asFile(recipe)], { type: 'text/x-python' }))
    link.download = fileName(recipe.title)
    link.click()
    setTimeout(() => URL.revokeObjectURL(link.href), 60_000)
}

/** A name that a file can have, with .py at its end. */
export function fileName(title) {
    const name = title.replace(/[\s/\\:*?"<>|]+/g, '_')
    return /\.\w+$/.test(name) ? name : `${name}.py`
}
