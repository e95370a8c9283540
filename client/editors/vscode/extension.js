// Starts the server, and shows what its commands write. `npm install` in this folder first.
const vscode = require('vscode');
const { LanguageClient } = require('vscode-languageclient/node');
const NAMES = ['mark', 'changes', 'why', 'class', 'uses', 'unused', 'compare', 'differ', 'families', 'counts', 'stats'];
let client;

exports.activate = async context => {
  const settings = vscode.workspace.getConfiguration('snowbench');
  const output = vscode.window.createOutputChannel('Snowball');
  const documentSelector = ['snowball', 'snowball-words', 'snowball-stems'].map(language => ({ language }));
  client = new LanguageClient('snowbench', 'Snowball', { command: settings.get('program'), args: ['lsp'] }, {
    documentSelector,
    initializationOptions: settings,
    synchronize: { configurationSection: 'snowbench' },
    middleware: {
      executeCommand: async (name, words, next) => {
        const lines = await next(name, words);
        output.clear();
        output.appendLine((lines || []).join('\n'));
        output.show(true);
      },
    },
  });
  await client.start();
  context.subscriptions.push(vscode.commands.registerCommand('snowbench.ask', async () => {
    const editor = vscode.window.activeTextEditor;
    const name = editor && await vscode.window.showQuickPick(NAMES);
    if (!name) return;
    const word = editor.document.getText(editor.selection) || editor.document.getText(editor.document.getWordRangeAtPosition(editor.selection.active));
    const of = await vscode.window.showInputBox({ prompt: name + ' of', value: ['why', 'class', 'uses'].includes(name) ? word : '' });
    if (of !== undefined) vscode.commands.executeCommand('snowbench.' + name, editor.document.uri.toString(), of);
  }));
};
exports.deactivate = () => client && client.stop();
