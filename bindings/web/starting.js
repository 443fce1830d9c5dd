// From a source to a compiled reader, or to the words that say what is wrong with it.
import { described } from './values.js'

/** The number of the interface that these files speak. */
const VERSION = 5

/** What is used of the reader. */
const DOORS = ['memory', '__heap_base', 'srv_read', 'srv_reread', 'srv_audit']

/** A .wasm begins with these bytes and four for its version. */
const MAGIC = [0x00, 0x61, 0x73, 0x6d]
const HEAD = 8

/** The reader cannot start: the message says why, `cause` what the engine said. */
export class CannotStart extends Error {
    name = 'CannotStart'
}

/** The compiled reader. `source`: the .wasm as bytes or as a compiled module, or where it is. */
export async function compiled(source) {
    if (typeof WebAssembly !== 'object') throw new CannotStart('There is no WebAssembly here, or it is switched off.')
    const module = source instanceof WebAssembly.Module ? source : await compiledBytes(source)
    checkOurs(module)
    return module
}

/** What an instance of it exports, with a memory of its own. */
export async function instance(module) {
    const { exports, version } = await started(module)
    if (version !== VERSION) throw new CannotStart(`The .wasm has interface ${version}, and ${VERSION} is needed: build it anew (tools/build-wasm).`)
    const missing = DOORS.filter((name) => !exports[name])
    if (missing.length) throw new CannotStart(`The .wasm has no ${missing.join(', ')}: build it anew (tools/build-wasm).`)
    return exports
}

async function started(module) {
    try {
        const { exports } = await WebAssembly.instantiate(module)
        return { exports, version: exports.srv_version() }
    } catch (cause) {
        throw new CannotStart(`The .wasm does not start: ${cause.message}`, { cause })
    }
}

async function compiledBytes(source) {
    const isPlace = typeof source === 'string' || source instanceof URL
    const name = isPlace ? String(source) : 'The .wasm'
    const bytes = isPlace ? await fetched(source) : copied(source)
    checkHead(bytes, name)
    try {
        return await WebAssembly.compile(bytes)
    } catch (cause) {
        throw new CannotStart(whyRefused(bytes, name, cause), { cause })
    }
}

// ---- where it comes from

const inNode = () => Boolean(globalThis.process?.versions?.node)
const hasScheme = (place) => /^[a-z][a-z0-9+.-]+:/i.test(place)
const isFile = (place) => /^file:/i.test(place)

/** The bytes of a URL, or under Node of a file's path too. */
async function fetched(place) {
    const words = String(place)
    if (inNode() && (isFile(words) || !hasScheme(words))) return readFile(isFile(words) ? new URL(words) : words)
    let response
    try {
        response = await fetch(place)
        if (response.ok) return new Uint8Array(await response.arrayBuffer())
    } catch (cause) {
        throw new CannotStart(`${place} cannot be fetched: ${cause.message}`, { cause })
    }
    throw new CannotStart(`${place} cannot be fetched: ${response.status}. ${NOT_BUILT}`)
}

const NOT_BUILT = 'Has tools/build-wasm been run?'

async function readFile(place) {
    try {
        const files = await import(/* webpackIgnore: true */ /* @vite-ignore */ 'node:fs/promises')
        return await files.readFile(place)
    } catch (cause) {
        throw new CannotStart(`${place} cannot be read: ${cause.message}. ${NOT_BUILT}`, { cause })
    }
}

/** A copy of bytes that were given, which nobody changes while they are compiled. */
function copied(source) {
    const isView = ArrayBuffer.isView(source)
    if (!isView && !/^\[object (Shared)?ArrayBuffer\]$/.test(Object.prototype.toString.call(source))) {
        throw new TypeError(`source must be a URL, a string, bytes or a WebAssembly.Module, not ${described(source)}`)
    }
    try {
        return isView ? new Uint8Array(source.buffer, source.byteOffset, source.byteLength).slice() : new Uint8Array(source).slice()
    } catch (cause) {
        throw new TypeError('source has a buffer that is detached', { cause })
    }
}

// ---- what is wrong with it

function checkHead(bytes, name) {
    if (bytes.length === 0) throw new CannotStart(`${name} is empty.`)
    const magic = bytes.subarray(0, MAGIC.length)
    if (magic.every((byte, i) => byte === MAGIC[i])) {
        if (bytes.length < HEAD) throw new CannotStart(cutShort(bytes, name))
        return
    }
    if (isPage(bytes)) throw new CannotStart(`${name} is a page of HTML and no .wasm: the server answers with it where the file is missing. ${NOT_BUILT}`)
    const first = Array.from(magic, (byte) => byte.toString(16).padStart(2, '0')).join(' ')
    throw new CannotStart(`${name} is no .wasm: its first bytes are ${first}, not 00 61 73 6d.`)
}

const isPage = (bytes) => /^\s*<(!doctype|html|head|body|!--|\?xml)/i.test(new TextDecoder().decode(bytes.subarray(0, 200)))

const cutShort = (bytes, name) => `${name} is cut short: it ends at byte ${bytes.length}.`

function whyRefused(bytes, name, cause) {
    if (isCut(bytes)) return cutShort(bytes, name)
    if (!hasSimd()) return `This engine has no SIMD instructions of WebAssembly, which the reader needs: ${cause.message}`
    return `${name} is damaged, or needs another engine: ${cause.message}`
}

/** Whether a .wasm ends before the end of its functions' code, the reader's last section. */
function isCut(bytes) {
    const CODE = 10
    let at = HEAD
    while (at < bytes.length) {
        const section = bytes[at++]
        let size = 0
        let digit
        let power = 1
        do {
            digit = bytes[at++]
            size += (digit & 0x7f) * power
            power *= 128
        } while (digit >= 0x80)
        at += size
        if (section === CODE && at <= bytes.length) return false
    }
    return true
}

/** Whether this engine takes a module of one function, which makes a vector of a number and gives a number of it back. */
function hasSimd() {
    const vector = [0x00, 0x41, 0x00, 0xfd, 0x0f, 0xfd, 0x16, 0x00, 0x0b]
    return WebAssembly.validate(
        Uint8Array.of(...MAGIC, 1, 0, 0, 0, 1, 5, 1, 0x60, 0, 1, 0x7f, 3, 2, 1, 0, 10, 2 + vector.length, 1, vector.length, ...vector)
    )
}

/** The reader tells its interface and asks for nothing: anything else is another program. */
function checkOurs(module) {
    const isOurs = WebAssembly.Module.exports(module).some(({ name, kind }) => name === 'srv_version' && kind === 'function')
    if (!isOurs || WebAssembly.Module.imports(module).length) throw new CannotStart('The .wasm is not the reader but another program.')
}
