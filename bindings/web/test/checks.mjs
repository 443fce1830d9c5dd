// What the tests under Node share: each check is a line, and the last line is `N passed, N failed`.

let passed = 0
let failed = 0

export async function test(name, work) {
    const began = performance.now()
    let said = ''
    try {
        said = (await work()) ?? ''
        passed++
    } catch (error) {
        failed++
        said = `FAILED: ${error.stack}`
    }
    console.log(`${name}${said && ': '}${said} (${((performance.now() - began) / 1000).toFixed(1)} s)`)
}

/** The last line, and the status. */
export function report() {
    console.log(`${passed} passed, ${failed} failed`)
    process.exitCode = failed ? 1 : 0
}

export function same(ours, theirs, what) {
    const differ = typeof theirs === 'string' ? ours !== theirs : ours.length !== theirs.length || !theirs.every((x, i) => x === ours[i])
    if (differ) throw new Error(`${what()}\n    ours:   ${Array.from(ours).join(' ')}\n    theirs: ${Array.from(theirs).join(' ')}`)
}

/** The work ends with an error of this very type, whose message has these words. */
export function throws(type, work, words = /./) {
    try {
        work()
    } catch (error) {
        if (error.constructor === type && words.test(error.message)) return
        throw new Error(`not a ${type.name} with ${words}: ${error.stack}`)
    }
    throw new Error(`no ${type.name}: ${work}`)
}

/** The same of work that is waited for. */
export async function rejects(type, work, words) {
    const ended = await work().then(
        () => () => {},
        (error) => () => {
            throw error
        },
    )
    throws(type, ended, words)
}

/** Numbers that come out the same every time. */
export function numbers(seed) {
    let state = seed >>> 0
    const next = () => {
        state = (state + 0x9e3779b9) >>> 0
        let z = Math.imul(state ^ (state >>> 16), 0x85ebca6b)
        z = Math.imul(z ^ (z >>> 13), 0xc2b2ae35)
        return (z ^ (z >>> 16)) >>> 0
    }
    const below = (limit) => next() % limit
    return { below, of: (things) => things[below(things.length)] }
}
