// A client of the language server (tools/lsp), which stands in the place of a package that would have to be fetched.
'use strict';
const { spawn } = require('child_process');
const vscode = require('vscode');

const LANGUAGES = ['talc', 'tal'];
const PLAIN = (it) => new vscode.Position(it.line, it.character);
const RANGE = (it) => new vscode.Range(PLAIN(it.start), PLAIN(it.end));
const PLACE = (it) => new vscode.Location(vscode.Uri.parse(it.uri), RANGE(it.range));

// A server that runs: requests to it, and what it tells.
class Connection {
    constructor(command, settings, told, ended) {
        this.waiting = new Map();
        this.number = 0;
        this.input = Buffer.alloc(0);
        this.told = told;
        this.process = spawn(command, [], { stdio: ['pipe', 'pipe', 'inherit'] });
        this.process.on('error', (error) => ended(`${command}: ${error.message}`));
        this.process.on('exit', (code) => ended(code ? `${command} ended with ${code}` : ''));
        this.process.stdin.on('error', () => {});
        this.process.stdout.on('data', (data) => this.take(data));
        const hover = { contentFormat: ['markdown'] };
        this.ready = this.ask('initialize', {
            processId: process.pid, rootUri: null, capabilities: { textDocument: { hover } }, initializationOptions: settings,
        }).then(() => this.tell('initialized', {}));
    }

    put(message) {
        const body = Buffer.from(JSON.stringify({ jsonrpc: '2.0', ...message }));
        this.process.stdin.write(`Content-Length: ${body.length}\r\n\r\n`);
        this.process.stdin.write(body);
    }

    tell(method, params) {
        this.put({ method, params });
    }

    ask(method, params) {
        this.number += 1;
        this.put({ id: this.number, method, params });
        return new Promise((done, failed) => this.waiting.set(this.number, { done, failed }));
    }

    take(data) {
        this.input = Buffer.concat([this.input, data]);
        for (;;) {
            const head = this.input.indexOf('\r\n\r\n');
            const length = Number(/Content-Length: *(\d+)/i.exec(this.input.subarray(0, Math.max(head, 0)))?.[1]);
            if (head < 0 || this.input.length < head + 4 + length) {
                return;
            }
            const message = JSON.parse(this.input.subarray(head + 4, head + 4 + length));
            this.input = this.input.subarray(head + 4 + length);
            const waits = this.waiting.get(message.id);
            if (waits) {
                this.waiting.delete(message.id);
                message.error ? waits.failed(new Error(message.error.message)) : waits.done(message.result);
            } else if (message.method) {
                this.told(message.method, message.params);
            }
        }
    }

    async end() {
        await this.ask('shutdown');
        this.tell('exit');
    }
}

// Has the editor show what the server tells, for as long as the extension is active.
exports.start = (context, command, settings) => {
    const shown = vscode.languages.createDiagnosticCollection('talc');
    const told = (method, params) => {
        if (method === 'textDocument/publishDiagnostics') {
            shown.set(vscode.Uri.parse(params.uri), params.diagnostics.map(diagnosticOf));
        } else if (method === 'window/showMessage') {
            vscode.window.showErrorMessage(params.message);
        }
    };
    let isOver = false;
    const server = new Connection(command, settings, told, (why) => {
        shown.clear();
        if (why && !isOver) {
            vscode.window.showErrorMessage(`talc: no language server: ${why}. The setting talc.server names it.`);
        }
        isOver = true;
    });
    const isOurs = (it) => LANGUAGES.includes(it.languageId);
    const tell = async (method, params) => (isOver ? undefined : (await server.ready, server.tell(method, params)));
    const opened = (it) => isOurs(it) && tell('textDocument/didOpen', {
        textDocument: { uri: it.uri.toString(), languageId: it.languageId, version: it.version, text: it.getText() },
    });
    const named = (it) => ({ textDocument: { uri: it.uri.toString() } });
    // What the server says of a text, or of a place in it; nothing where it has ended.
    const ask = async (method, document, more) => {
        if (isOver) {
            return null;
        }
        await server.ready;
        return server.ask(`textDocument/${method}`, { ...named(document), ...more });
    };
    const at = (position) => ({ position: { line: position.line, character: position.character } });
    const edits = (changes) => {
        const made = new vscode.WorkspaceEdit();
        for (const [uri, list] of Object.entries(changes)) {
            list.forEach((it) => made.replace(vscode.Uri.parse(uri), RANGE(it.range), it.newText));
        }
        return made;
    };
    const { languages, workspace } = vscode;
    context.subscriptions.push(
        shown,
        workspace.onDidOpenTextDocument(opened),
        workspace.onDidChangeTextDocument(({ document: it }) => isOurs(it) && tell('textDocument/didChange', {
            textDocument: { uri: it.uri.toString(), version: it.version }, contentChanges: [{ text: it.getText() }],
        })),
        workspace.onDidCloseTextDocument((it) => isOurs(it) && tell('textDocument/didClose', named(it))),
        languages.registerHoverProvider(LANGUAGES, {
            async provideHover(document, position) {
                const found = await ask('hover', document, at(position));
                return found && new vscode.Hover(new vscode.MarkdownString(found.contents.value), RANGE(found.range));
            },
        }),
        languages.registerCompletionItemProvider(LANGUAGES, {
            async provideCompletionItems(document, position) {
                const found = await ask('completion', document, at(position));
                return found?.map((it) => new vscode.CompletionItem(it.label, it.kind - 1));
            },
        }),
        languages.registerDefinitionProvider(LANGUAGES, {
            async provideDefinition(document, position) {
                const found = await ask('definition', document, at(position));
                return found && PLACE(found);
            },
        }),
        languages.registerReferenceProvider(LANGUAGES, {
            async provideReferences(document, position, how) {
                const context = { includeDeclaration: how.includeDeclaration };
                return (await ask('references', document, { ...at(position), context }))?.map(PLACE);
            },
        }),
        languages.registerDocumentHighlightProvider(LANGUAGES, {
            async provideDocumentHighlights(document, position) {
                const found = await ask('documentHighlight', document, at(position));
                return found?.map((it) => new vscode.DocumentHighlight(RANGE(it.range)));
            },
        }),
        languages.registerDocumentSymbolProvider(LANGUAGES, {
            async provideDocumentSymbols(document) {
                return (await ask('documentSymbol', document))?.map(symbolOf);
            },
        }),
        languages.registerRenameProvider(LANGUAGES, {
            async prepareRename(document, position) {
                const found = await ask('prepareRename', document, at(position));
                return found && { range: RANGE(found.range), placeholder: found.placeholder };
            },
            async provideRenameEdits(document, position, newName) {
                const found = await ask('rename', document, { ...at(position), newName });
                return found && edits(found.changes);
            },
        }),
        languages.registerCodeActionsProvider(LANGUAGES, {
            async provideCodeActions(document, range) {
                const context = { diagnostics: [] };
                const found = await ask('codeAction', document, { range: { start: range.start, end: range.end }, context });
                return found?.map((it) => Object.assign(new vscode.CodeAction(it.title, vscode.CodeActionKind.QuickFix), {
                    edit: edits(it.edit.changes), isPreferred: it.isPreferred, diagnostics: it.diagnostics.map(diagnosticOf),
                }));
            },
        }),
        { dispose: () => (isOver ? undefined : (isOver = true, server.end())) },
    );
    workspace.textDocuments.forEach(opened);
    return server;
};

function diagnosticOf(it) {
    const made = new vscode.Diagnostic(RANGE(it.range), it.message, vscode.DiagnosticSeverity.Error);
    const target = it.codeDescription && vscode.Uri.parse(it.codeDescription.href);
    return Object.assign(made, { source: it.source, code: target ? { value: it.code, target } : it.code });
}

// (kinds count from 1 in the protocol, and from 0 in the editor)
function symbolOf(it) {
    const made = new vscode.DocumentSymbol(it.name, it.detail, it.kind - 1, RANGE(it.range), RANGE(it.selectionRange));
    return Object.assign(made, { children: it.children.map(symbolOf) });
}
