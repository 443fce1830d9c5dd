// The trials of editor.py that need no key and no mouse: each throws what is wrong, or answers what it did.
import * as trials from './editor-trials.js'
import { adapter, arrows, chance, cm, differs, drawnLines, plain, reader, readings, sroviemat } from './editor-page.js'

const pause = (ms) => new Promise((done) => setTimeout(done, ms))
const at = (line, ch) => ({ line, ch })

function check(isRight, what) {
    if (!isRight) throw new Error(typeof what === 'string' ? what : JSON.stringify(what))
}

function checkSame(what, options) {
    const found = differs(options)
    check(!found, `${what}: ${found}`)
}

/** swapDoc, setValue, setMode, other line ends and line numbers, and what is asked inside an operation. */
export async function otherDocumentsAndModes() {
    const first = cm.getDoc()
    cm.setValue('a = 1\n')
    checkSame('setValue')
    cm.swapDoc(CodeMirror.Doc("b = '''\n'''\n"))
    checkSame('a document with another mode')
    cm.operation(() => {
        cm.replaceRange('x', at(0, 0))
        cm.swapDoc(first)
        cm.replaceRange('y', at(0, 0))
    })
    check(cm.getValue() === 'ya = 1\n', cm.getValue())
    checkSame('swapDoc among changes')
    cm.operation(() => {
        cm.replaceRange('# z', at(1, 0))
        check(reader.document.text === 'ya = 1\n# z', 'asked inside an operation')
        cm.replaceRange('v\nw', at(0, 0))
        check(cm.getTokenTypeAt(at(2, 2)) === 'comment', 'the sort of a token inside an operation')
    })
    checkSame('asked inside an operation')
    cm.operation(() => {
        cm.replaceRange('1', at(0, 0))
        reader.setMode(sroviemat.MODULE)
        cm.replaceRange('v', at(0, 0))
    })
    check(reader.document.mode === 0 && reader.document.text === cm.getValue(), 'setMode')
    check(!reader.row.some((x, i) => i % sroviemat.STRIDE === 0 && x === 7), 'a comment in a mode without them')
    reader.setMode(sroviemat.MODULE_WITH_COMMENTS)
    cm.setValue('a = 1\nb = (\n2)\n')
    checkSame('the mode again')
    await otherLineEnds()
    await otherLineNumbers()
}

async function otherLineEnds() {
    const was = readings()
    cm.setOption('lineSeparator', '\r\n')
    check(readings() > was, 'other line ends are not heard of')
    check(reader.document.text === 'a = 1\r\nb = (\r\n2)\r\n', reader.document.text)
    checkSame('CRLF')
    cm.setValue('if a:\r\n    b\rc\r\n    d\r\ne')
    await loneCarriageReturn('with CRLF')
    cm.setValue('if a:\n    b\nc')
    check(cm.lineCount() === 1 && reader.editorLine(2) === 0, 'one line with CRLF')
    checkSame('one line with CRLF', { colours: false })
    cm.setOption('lineSeparator', '\n')
    cm.setValue('if a:\n    b\rc\n    d\ne')
    await loneCarriageReturn('with LF')
    // The line keeps it when the editor has no separator of its own any more.
    cm.setOption('lineSeparator', null)
    await loneCarriageReturn('with none any more')
    cm.swapDoc(CodeMirror.Doc('if a:\n    b\rc\n    d\ne', null, 0, '\n'))
    await loneCarriageReturn("with the document's own")
    cm.setOption('lineSeparator', '\r')
    check(reader.document.text === cm.getValue() && cm.getValue().includes('b\rc\r    d'), 'one line end for another of the same length')
    checkSame('CR', { colours: false })
    cm.setValue('')
    cm.setOption('lineSeparator', null)
    cm.setValue('a\nb\rc')
    check(cm.lineCount() === 3 && reader.document.text === 'a\nb\nc', reader.document.text)
    checkSame('LF')
}

/** A CR within the editor's second line is a line end of the text: what is on the lines behind it is where it stands. */
async function loneCarriageReturn(what) {
    await pause(250)
    check(cm.lineCount() === 4 && cm.getLine(1) === '    b\rc', `${what}: ${JSON.stringify(cm.getValue())}`)
    check(arrows() === '0,1', `${what}, arrows: ${arrows()}`)
    check(String([0, 1, 2, 3, 4].map((line) => reader.editorLine(line))) === '0,1,1,2,3', `${what}, lines`)
    checkSame(what, { colours: false })
}

async function otherLineNumbers() {
    cm.swapDoc(CodeMirror.Doc('', 'text/plain'))
    checkSame('an empty document')
    cm.getDoc().linkedDoc({}).replaceRange('x = 1', at(0, 0))
    check(reader.document.text === 'x = 1', 'a linked document')
    checkSame('a linked document')
    cm.swapDoc(CodeMirror.Doc('if a:\n    b = [\n    1]\n$', null, 100))
    await pause(250)
    check(arrows() === '100,101', `arrows from line 100 on: ${arrows()}`)
    check(reader.position(6).line === 101 && document.querySelector('.sroviemat-fault')?.textContent === '$', 'places from line 100 on')
    cm.replaceRange('', at(103, 0), at(103, 1))
    checkSame('lines from 100 on')
    const whole = CodeMirror.Doc('a\nb\nc\nd\n')
    cm.swapDoc(whole.linkedDoc({ from: 1, to: 3 }))
    checkSame('a part of a document')
    whole.replaceRange('x\ny', at(0, 0))
    checkSame('a change before the part')
    cm.replaceRange(' = (1,\n2)', at(3, 1))
    check(reader.document.text === 'b\nc = (1,\n2)', reader.document.text)
    checkSame('a change of the part')
}

const BITS = ['a', '\n', '(', ')', "'", "'''", ' ', '    ', ':', '#', 'match ', 'é', '\ud83d\ude00', '\\']
const ODD_BITS = [...BITS, '\ud83d', '\ude00', '\r\n', '\r', '\u2028', '\t', '[', ']', '([)]']
const PYTHON_BITS = [...BITS, '"', '# ', 'case ', 'type ', 'x = 1', '1', '\n    ', '\\\n']

/** One to four changes an operation, with undo and redo, lone halves and other line ends: in a short text and in a long one. */
export async function randomOperations() {
    const r = chance(7)
    let done = 0
    const place = (most) => {
        const line = r(Math.min(most, cm.lineCount()))
        return at(line, r(cm.getLine(line).length + 1))
    }
    const change = (most, isLate) => {
        let [a, b] = [place(most), place(most)].sort(CodeMirror.cmpPos)
        if (r(3)) b = a
        // More is taken away than put in, so that the text stays short.
        if (isLate && r(2)) b = at(Math.min(cm.lastLine(), a.line + 1), 0)
        if (CodeMirror.cmpPos(a, b) > 0) b = a
        cm.replaceRange(ODD_BITS[r(ODD_BITS.length)] + (r(3) ? '' : ODD_BITS[r(ODD_BITS.length)]), a, b)
        // The editor measures, and asks for colours, before it tells of the change.
        if (r(9) === 0) cm.charCoords(a)
    }
    for (const [separator, text, turns] of [[null, '', 1000], ['\n', '', 400], ['\r\n', '', 400], [null, 'x = (1, é)\n'.repeat(9000), 150]]) {
        cm.setOption('lineSeparator', separator)
        cm.swapDoc(CodeMirror.Doc(text, cm.getOption('mode'), 0, separator))
        for (let n = 0; n < turns; n++, done++) {
            const what = r(12)
            if (what === 0) cm.undo()
            else if (what === 1) cm.redo()
            // In the long text the changes stay together, so that they wait for the frame.
            else cm.operation(() => { for (let k = r(4); k >= 0; k--) change(text ? 40 : Infinity, n > 400) })
            if (text && r(3)) continue
            check(reader.document.text === plain(cm.getValue()), `text after ${n} with ${JSON.stringify(separator)} ${text.length}`)
            if (n % 50 === 0) checkSame(`after ${n} with ${JSON.stringify(separator)}`, { colours: false })
        }
        checkSame(`at the end with ${JSON.stringify(separator)}`, { colours: false })
    }
    return `${done} operations`
}

const START = `match x:
    case 1:
        y = f(1, 2)
    case [a,
          b]:
# margin
        z = '''q
w'''
type T = int
match = 2
match (a,
   b)
type (1)
`

/** Whenever the text is read to its end, the colours are those of a whole reading: in a long text once it is read by itself. */
export async function randomColours() {
    const r = chance(11)
    const said = []
    const bit = () => PYTHON_BITS[r(PYTHON_BITS.length)]
    const change = (place) => {
        if (r(3) === 0) return cm.replaceRange('', place, at(place.line, place.ch + 1 + r(3)))
        if (r(6)) return cm.replaceRange(bit(), place)
        cm.operation(() => {
            cm.replaceRange(bit(), place)
            cm.charCoords(at(0, 0))
            cm.charCoords(place)
            cm.replaceRange(bit(), at(0, 0))
        })
    }
    const isRead = async () => {
        const was = readings()
        for (let k = 0; k < 40 && readings() === was; k++) await pause(5)
    }
    for (const [more, turns] of [['', 900], ['x = (1, 2)\n'.repeat(9000), 60]]) {
        let compared = 0
        cm.setValue(START + more)
        const lines = cm.lineCount()
        for (let n = 0; n < turns; n++) {
            const line = r(Math.min(24, cm.lineCount()))
            if (cm.lineCount() > lines + 12) cm.setValue(START + more)
            else if (reader.document.code !== 0 && r(4)) cm.undo()
            else change(at(line, r(cm.getLine(line).length + 1)))
            if (more) await isRead()
            if (reader.document.code !== 0) continue
            checkSame(`after ${n}: ${JSON.stringify(plain(cm.getValue().slice(0, 400)))}`)
            compared++
        }
        check(compared > turns / 4, `only ${compared} of ${turns} were read to the end`)
        said.push(`${compared} of ${turns} read to the end`)
    }
    return said.join(', ')
}

/** The letter is drawn before the reading; the reading follows by itself; whoever asks before that gets it read. */
export async function aLongTextIsDrawnFirst() {
    // The gutter would ask for the folds, and so for the reading.
    cm.setOption('foldGutter', false)
    cm.setValue("a = 'x'\n" + 'b = 1\n'.repeat(20_000))
    const was = readings()
    cm.replaceRange('yz', at(0, 6))
    check(drawnLines()[0] === "name a | operator = | string 'xyz'", drawnLines()[0])
    cm.replaceRange('\nfor', at(0, 9))
    cm.replaceRange(' q in', at(1, 3))
    check(drawnLines()[1] === 'keyword for q in', drawnLines()[1])
    check(readings() === was, 'it was read before the frame')
    const began = performance.now()
    while (readings() === was && performance.now() - began < 2000) await pause(1)
    check(readings() === was + 1, `${readings() - was} readings`)
    check(drawnLines()[1] === 'keyword for | name q | keyword in', drawnLines()[1])
    checkSame('once it is read')
    cm.replaceRange('$', at(3, 0))
    check(reader.fault?.start === reader.offset(at(3, 0)) && reader.document.text === cm.getValue(), 'asked at once')
    cm.replaceRange('', at(3, 0), at(3, 1))
    check(reader.row[2] === 1 && reader.fault === null, 'asked at once for the row')
}

/** CodeMirror runs a mode over all lines before the view, in the background, unless it is told that this is done. */
export async function noWorkInTheBackground() {
    cm.setValue('b = 1\n'.repeat(8000))
    await pause(400)
    cm.setCursor(cm.lastLine(), 0)
    await pause(600)
    cm.replaceRange('x', at(0, 0))
    await pause(600)
    let touched = 0
    cm.eachLine((line) => { if (line.stateAfter) touched++ })
    check(touched < 500, `${touched} lines`)
    return `${touched} of 8001 lines were coloured`
}

/** One line of 100 KB: a letter in it, beside an editor without the reader. */
export async function aLongLine() {
    const text = 'x = [' + '1, '.repeat(33_000) + ']\n'
    const letter = (editor) => {
        const times = []
        for (let i = 0; i < 7; i++) {
            const began = performance.now()
            editor.replaceRange('2', at(0, 5))
            times.push(performance.now() - began)
        }
        return `${times.sort((a, b) => a - b)[3].toFixed(1)} ms`
    }
    const place = document.body.appendChild(document.createElement('div'))
    const without = letter(CodeMirror(place, { value: text, lineNumbers: true }))
    place.remove()
    cm.setValue(text)
    await pause(200)
    const ours = letter(cm)
    await pause(200)
    check(drawnLines()[0].startsWith('name x | operator =[ | number 2222222'), drawnLines()[0].slice(0, 99))
    checkSame('a long line', { colours: false })
    return `${ours}, without the reader ${without}`
}

/** An editor that lacks one of the four internals is refused, and the message names it. */
export async function whatCodemirrorDoesNotDocument() {
    const whole = { constructor: CodeMirror, state: { modeGen: 0 }, doc: { highlightFrontier: 0 }, curOp: { changeObjs: null }, operation: (run) => run() }
    const lacking = {
        'curOp.changeObjs': { curOp: {} },
        'state.modeGen': { state: {} },
        'doc.highlightFrontier': { doc: {} },
        'lineOracle.line': { constructor: { StringStream: class {} } },
    }
    for (const [name, part] of Object.entries(lacking)) {
        let said = ''
        try {
            new adapter.EditorReader({ ...whole, ...part })
        } catch (error) {
            said = error.message
        }
        check(said.includes(`no ${name}`) && !said.includes(', no'), `${name}: ${said}`)
    }
    let line = -1
    CodeMirror.defineMode('looking', () => ({
        token(stream) {
            line = stream.lineOracle.line
            stream.skipToEnd()
        },
    }))
    const place = document.body.appendChild(document.createElement('div'))
    CodeMirror(place, { value: 'a\nb', mode: 'looking' })
    place.remove()
    check(line === 1 && CodeMirror.version.startsWith('5.65'), `line ${line} of CodeMirror ${CodeMirror.version}`)
}

/** A bar down each block and words in its first line; both move along with their lines, and nothing is drawn by old lines. */
export async function blocksBesideTheText() {
    cm.setOption('gutters', [adapter.BLOCK_GUTTER, ...cm.getOption('gutters')])
    const blocks = new adapter.BlockGutter(cm, reader)
    const text = 'a\n'.repeat(300)
    cm.setValue(text)
    const show = (startLine, endLine) => blocks.show([{ startLine, endLine, bar: 'bar', mark: 'words', words: 'here' }])
    const bars = () => [...document.querySelectorAll('.CodeMirror-code > div')].flatMap((row, i) => (row.querySelector('.CodeMirror-gutter-background.bar') ? [cm.getViewport().from + i] : []))
    const words = () => [...document.querySelectorAll('.CodeMirror-gutter-elt .words')].map((e) => e.textContent)
    const width = document.querySelector('.sroviemat-blocks').offsetWidth
    show(3, 5)
    check(String(bars()) === '3,4,5' && String(words()) === 'here', [bars(), words()])
    cm.replaceRange('b\n'.repeat(2), at(0, 0))
    check(String(bars()) === '5,6,7', ['moved along', bars()])
    // A look at other lines and back draws nothing by the lines that the block had.
    cm.scrollIntoView(at(299, 0))
    cm.scrollIntoView(at(0, 0))
    await pause(50)
    check(String(bars()) === '5,6,7', ['scrolled', bars()])
    show(200, 202)
    check(bars().length === 0 && words().length === 0, ['elsewhere', bars()])
    cm.scrollIntoView(at(201, 0))
    await pause(50)
    check(String(bars()) === '200,201,202', ['in view now', bars()])
    check(document.querySelector('.sroviemat-blocks').offsetWidth === width, 'the gutter has another width')
    // A block's lines are the text's, of which an editor may keep two in one line.
    cm.setOption('lineSeparator', '\n')
    cm.setValue(`a\nb\rc\nd\n${text}`)
    show(2, 3)
    check(String(bars()) === '1,2' && String(words()) === 'here', ['with a lone CR', bars(), words()])
    show(200, 202)
    blocks.dispose()
    check(bars().length === 0 && words().length === 0, ['taken off', bars()])
    cm.replaceRange('c', at(200, 0))
    check(bars().length === 0, 'a change is heard of after dispose')
}

/** After dispose the editor is as it was: options, listeners, marks, what is drawn; and nothing is read. In the page without the reader. */
export async function takenOffAgain() {
    const options = () => JSON.stringify(['mode', 'gutters', 'foldGutter', 'foldOptions', 'lineNumbers'].map((name) => cm.getOption(name)))
    const listeners = () => JSON.stringify(Object.entries(cm._handlers).map(([name, all]) => [name, all.length]).filter(([, count]) => count).sort())
    const html = () => document.querySelector('.CodeMirror-lines').innerHTML
    cm.setValue('if a:\n    b = 1\n([)] $\n' + 'c\n'.repeat(50_000))
    const before = [options(), listeners(), html()]
    const own = new adapter.EditorReader(cm)
    let read = 0
    own.onRead(() => read++)
    await pause(200)
    cm.foldCode(0)
    for (const shown of ['.sroviemat-fault', '.sroviemat-wrong-bracket', '.sroviemat-met-opener', '.CodeMirror-foldmarker', '.cm-keyword']) check(document.querySelector(shown), `no ${shown}`)
    cm.replaceRange('1', at(9, 1))
    own.dispose()
    cm.replaceRange('', at(9, 1), at(9, 2))
    await pause(300)
    check(!read, 'it was read')
    const after = [options(), listeners(), html()]
    check(after.join() === before.join() && !cm.getAllMarks().length, [after, before].map((row) => row.slice(0, 2)))
    own.dispose()
    const again = new adapter.EditorReader(cm)
    check(again.document.text === cm.getValue() && again.fault, 'another reader')
}

Object.assign(window, { trials, ready: true })
