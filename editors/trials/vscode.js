// A stand-in for Visual Studio Code, for editors/test: starts the extension over a text, and shows what it gives the
// editor. Words: the folder of the extension, the server, the file.
'use strict';
const fs = require('fs');
const Module = require('module');

const [, , folder, server, file] = process.argv;
const given = {}, told = [];
class Position { constructor(line, character) { Object.assign(this, { line, character }); } }
class Range { constructor(start, end) { Object.assign(this, { start, end }); } }
const disposable = { dispose() {} };
const keep = (name) => (_, provider) => (given[name] = provider, disposable);
const document = {
    uri: { toString: () => `file://${file}` }, languageId: 'talc', version: 1, getText: () => fs.readFileSync(file, 'utf8'),
};
const vscode = {
    Position, Range,
    Uri: { parse: (it) => ({ toString: () => it }) },
    Location: class { constructor(uri, range) { Object.assign(this, { uri: uri.toString(), range }); } },
    Hover: class { constructor(contents, range) { Object.assign(this, { contents, range }); } },
    MarkdownString: class { constructor(value) { this.value = value; } },
    Diagnostic: class { constructor(range, message) { Object.assign(this, { range, message }); } },
    DiagnosticSeverity: { Error: 0 },
    DocumentSymbol: class { constructor(name, detail, kind, range, selectionRange) { Object.assign(this, { name, kind, range, selectionRange }); } },
    DocumentHighlight: class { constructor(range) { this.range = range; } },
    CodeAction: class { constructor(title) { this.title = title; } },
    CodeActionKind: { QuickFix: 'quickfix' },
    WorkspaceEdit: class { constructor() { this.edits = []; } replace(uri, range, text) { this.edits.push([range, text]); } },
    CompletionItem: class { constructor(label, kind) { Object.assign(this, { label, kind }); } },
    Task: class {}, ProcessExecution: class {}, TaskGroup: {}, TaskRevealKind: {}, TaskScope: {},
    tasks: { registerTaskProvider: () => disposable },
    window: { showErrorMessage: (text) => console.log(text) },
    workspace: {
        textDocuments: [document],
        getConfiguration: () => ({ get: (name, other) => (name === 'server' ? server : other), inspect: () => ({}) }),
        onDidOpenTextDocument: () => disposable, onDidCloseTextDocument: () => disposable,
        onDidChangeTextDocument: (call) => (given.change = call, disposable),
    },
    languages: {
        createDiagnosticCollection: () => ({ set: (_, list) => told.push(list), clear() {}, dispose() {} }),
        registerHoverProvider: keep('hover'), registerCompletionItemProvider: keep('completion'), registerDefinitionProvider: keep('definition'),
        registerReferenceProvider: keep('references'), registerDocumentHighlightProvider: keep('highlights'),
        registerDocumentSymbolProvider: keep('symbols'), registerRenameProvider: keep('rename'),
        registerCodeActionsProvider: keep('actions'),
    },
};
const load = Module._load;
Module._load = (name, ...more) => (name === 'vscode' ? vscode : load(name, ...more));

(async () => {
    const context = { subscriptions: [] };
    require(`${folder}/extension.js`).activate(context);
    while (!told.length) {
        await new Promise((done) => setTimeout(done, 20));
    }
    const at = new Position(1, 0), token = {};
    const [fault] = told[0];
    const shown = {
        fault: [fault.code.value ?? fault.code, fault.range, fault.message.split('\n')[0]],
        hover: (await given.hover.provideHover(document, at)).contents.value,
        definition: (await given.definition.provideDefinition(document, at)).range.start,
        references: (await given.references.provideReferences(document, at, { includeDeclaration: true })).length,
        highlights: (await given.highlights.provideDocumentHighlights(document, at)).length,
        symbols: (await given.symbols.provideDocumentSymbols(document)).map((it) => [it.name, it.kind]),
        rename: (await given.rename.provideRenameEdits(document, at, 'other')).edits.length,
        offered: (await given.completion.provideCompletionItems(document, at)).slice(0, 2).map((it) => it.label),
        refused: await given.rename.provideRenameEdits(document, at, 'in').catch((error) => error.message),
        actions: (await given.actions.provideCodeActions(document, fault.range, token)).map((it) => it.title),
    };
    console.log(JSON.stringify(shown));
    context.subscriptions.forEach((it) => it.dispose());
})();
