// bindings/web/test/package.mjs: `npm pack`, and the package in an empty folder: installed, run under Node, compiled against with
// TypeScript where its compiler is there. The last line is `N passed, N failed`; the status is 1 if any failed.
import { spawnSync } from 'node:child_process'
import { copyFileSync, existsSync, mkdirSync, mkdtempSync, readdirSync, readFileSync, rmSync, writeFileSync } from 'node:fs'
import { tmpdir } from 'node:os'
import { join } from 'node:path'
import { fileURLToPath } from 'node:url'
import { report, same, test } from './checks.mjs'

const WEB = fileURLToPath(new URL('..', import.meta.url))
const folder = mkdtempSync(join(tmpdir(), 'sroviemat-package-'))
const project = join(folder, 'project')
const installed = join(project, 'node_modules/sroviemat')
const QUIET = { npm_config_cache: join(folder, 'cache'), npm_config_offline: 'true', npm_config_audit: 'false', npm_config_fund: 'false', npm_config_update_notifier: 'false' }

const isThere = (program) => spawnSync(program, ['--version']).status === 0

function run(program, words, cwd) {
    const { status, stdout, stderr, error } = spawnSync(program, words, { cwd, encoding: 'utf8', env: { ...process.env, ...QUIET } })
    if (status !== 0) throw new Error(`${program} ${words.join(' ')}: ${error ?? stdout + stderr}`)
    return stdout
}

const manifest = () => JSON.parse(readFileSync(join(WEB, 'package.json'), 'utf8'))

function pack() {
    run('npm', ['pack', '--pack-destination', folder], WEB)
    if (existsSync(join(WEB, 'LICENSE'))) throw new Error('the copy of the licence was left behind')
    mkdirSync(project)
    writeFileSync(join(project, 'package.json'), '{ "name": "project", "private": true, "type": "module" }')
    const archive = readdirSync(folder).find((name) => name.endsWith('.tgz'))
    run('npm', ['install', join(folder, archive)], project)
    return archive
}

/** What is listed, the licence and the README, and no more. */
function files() {
    const there = readdirSync(installed).sort()
    same(there.join(), [...manifest().files, 'LICENSE', 'README.md', 'package.json'].sort().join(), () => 'files')
    same(readFileSync(join(installed, 'LICENSE'), 'utf8'), readFileSync(join(WEB, '../../NOTICE'), 'utf8'), () => 'LICENSE')
    return `${there.length} files`
}

/** Every file that an export or an import names is there. */
function names() {
    const exported = Object.values(manifest().exports).flatMap((target) => (typeof target === 'string' ? target : Object.values(target)))
    const imported = readdirSync(installed)
        .filter((name) => /\.(js|d\.ts)$/.test(name))
        .flatMap((name) => [...readFileSync(join(installed, name), 'utf8').matchAll(/(?:from|import) '(\.[^']*)'/g)].map(([, target]) => target))
    const missing = [...exported, ...imported].filter((target) => !existsSync(join(installed, target)))
    same(missing.join(), '', () => 'missing')
    return `${exported.length} exported, ${imported.length} imported`
}

const PROGRAM = `
    import { load, MODULE_WITH_COMMENTS, PythonDocument, tokenize } from 'sroviemat'
    import { faultOf } from 'sroviemat/faults.js'
    import { foldsOf } from 'sroviemat/folds.js'
    import { KIND } from 'sroviemat/names.js'
    await load()
    const document = new PythonDocument('with a:\\n    b(\\n', MODULE_WITH_COMMENTS)
    console.log(Array.from(tokenize('pâte = 1'), ({ text }) => text).join('|'), document.fault.message, faultOf(document, [], 'x').code, KIND.Name)
    document.edit(14, 14, '1)')
    console.log(document.code, JSON.stringify(foldsOf(document.utf16(), document.text)), import.meta.resolve('sroviemat/sroviemat.wasm').endsWith('sroviemat.wasm'))
`

function program() {
    writeFileSync(join(project, 'program.js'), PROGRAM)
    const wanted = 'pâte|=|1| `(` at 2:6 is never closed. 21 3\n0 [{"startLine":0,"endLine":1,"kind":"block"}] true\n'
    same(run(process.execPath, ['program.js'], project), wanted, () => 'what the program prints')
}

function types() {
    copyFileSync(join(WEB, 'test/types.ts'), join(project, 'types.ts'))
    for (const [module, resolution] of [['nodenext', 'nodenext'], ['es2022', 'node']]) {
        // The older resolution knows no `exports` and finds the files of the package's folder.
        const compilerOptions = { noEmit: true, strict: true, target: 'es2022', lib: ['es2022', 'dom'], types: [], module, moduleResolution: resolution }
        writeFileSync(join(project, 'tsconfig.json'), JSON.stringify({ compilerOptions, files: ['types.ts'] }))
        run('tsc', [], project)
    }
    return run('tsc', ['--version'], project).trim()
}

try {
    if (isThere('npm')) {
        await test('npm pack', pack)
        await test('its files', files)
        await test('exports and imports', names)
        await test('a program', program)
        if (isThere('tsc')) await test('a program in TypeScript', types)
        else console.log('a program in TypeScript: its compiler is not here (node-typescript)')
    } else console.log('npm pack: npm is not here')
} finally {
    rmSync(folder, { recursive: true })
}
report()
