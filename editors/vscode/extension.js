// Starts the language server; and has tasks `talc: explain FILE`, whose output the problem matcher of package.json
// reads.
'use strict';
const vscode = require('vscode');
const client = require('./client.js');

function taskFor(file, scope, definition) {
    const program = vscode.workspace.getConfiguration('talc').get('path', 'talc');
    const run = new vscode.ProcessExecution(program, ['explain', file]);
    const task = new vscode.Task(definition, scope, `explain ${file}`, 'talc', run, ['$talc']);
    task.group = vscode.TaskGroup.Build;
    task.presentationOptions = { reveal: vscode.TaskRevealKind.Silent };
    return task;
}

// A task for the text that is in view, where it is one of ours.
function provideTasks() {
    const view = vscode.window.activeTextEditor;
    if (!view || !['talc', 'tal'].includes(view.document.languageId)) {
        return [];
    }
    const file = view.document.fileName;
    return [taskFor(file, vscode.TaskScope.Workspace, { type: 'talc', file })];
}

// A task of a tasks.json, which names its file.
function resolveTask(task) {
    const { file } = task.definition;
    return file ? taskFor(file, task.scope ?? vscode.TaskScope.Workspace, task.definition) : undefined;
}

exports.activate = (context) => {
    context.subscriptions.push(vscode.tasks.registerTaskProvider('talc', { provideTasks, resolveTask }));
    const settings = vscode.workspace.getConfiguration('talc');
    const server = settings.get('server', 'talc-lsp');
    if (server) {
        const { globalValue, workspaceValue } = settings.inspect('path') ?? {};
        client.start(context, server, { path: workspaceValue ?? globalValue });
    }
};
