// Charts of sfcmon in VS Code: the language server and the debug adapter of the program itself, a drawing beside the text, tasks for tests.
"use strict";
const vscode = require("vscode");
const fs = require("fs");
const os = require("os");
const path = require("path");
const { execFile } = require("child_process");

const LANGUAGES = ["sfc-chart", "sfc-script", "sfc-test"];
const MOST = 64 * 1024 * 1024;

/** The program, by the settings. */
const programName = () => vscode.workspace.getConfiguration("sfcmon").get("path", "sfcmon");

/** What the program prints on these words, and its status. */
function run(words, folder) {
  return new Promise((resolve) => {
    execFile(programName(), words, { cwd: folder, maxBuffer: MOST }, (error, out, told) =>
      resolve({ status: error ? error.code : 0, out, told: told || (error ? error.message : "") }));
  });
}

// ---- the language server

async function startServer(context) {
  let node;
  try {
    node = require("vscode-languageclient/node");
  } catch {
    vscode.window.showInformationMessage(
      "sfcmon: faults as you type, hover and rename want vscode-languageclient; run 'npm install' in " + context.extensionPath);
    return;
  }
  const server = { command: programName(), args: ["lsp"], transport: node.TransportKind.stdio };
  const client = new node.LanguageClient("sfcmon", "sfcmon", server, {
    documentSelector: LANGUAGES.map((language) => ({ scheme: "file", language })),
  });
  context.subscriptions.push({ dispose: () => client.stop() });
  await client.start();
}

// ---- the drawing beside the text

/** A drawing: its panel, and the chart that it draws. */
class Drawing {
  constructor(uri, ended) {
    this.uri = uri;
    this.panel = vscode.window.createWebviewPanel("sfcmon.drawing", path.basename(uri.fsPath), vscode.ViewColumn.Beside, {});
    this.panel.onDidDispose(() => ended(this));
  }

  /** Draws the chart as it was saved, or as it stands behind a script. */
  async draw(script) {
    const words = ["draw", this.uri.fsPath, ...(script ? ["--after", script] : [])];
    const { status, out, told } = await run(words, path.dirname(this.uri.fsPath));
    const escaped = told.replace(/&/g, "&amp;").replace(/</g, "&lt;");
    const body = status === 0 ? out : `<pre>${escaped}</pre>`;
    this.panel.webview.html = `<!DOCTYPE html><html><head><meta charset="utf-8">
<meta http-equiv="Content-Security-Policy" content="default-src 'none'; style-src 'unsafe-inline'"></head><body>${body}</body></html>`;
  }
}

class Drawings {
  constructor() {
    this.all = new Map();
  }

  open(uri) {
    const key = uri.toString();
    const drawing = this.all.get(key) || new Drawing(uri, () => this.all.delete(key));
    this.all.set(key, drawing);
    drawing.panel.reveal(undefined, true);
    return drawing.draw();
  }

  async draw(uri, script) {
    const drawing = this.all.get(uri.toString());
    if (drawing) await drawing.draw(script);
  }
}

// ---- debugging

/** Draws the chart as it stands, whenever the debugger stops. */
function trackerOf(session, drawings) {
  const file = path.join(os.tmpdir(), `sfcmon-${process.pid}-${session.id}.script`);
  const show = async () => {
    const { script } = await session.customRequest("sfcmon/script");
    fs.writeFileSync(file, script);
    await drawings.draw(vscode.Uri.file(session.configuration.program), file);
  };
  return {
    onDidSendMessage: (message) => {
      if (message.type === "event" && message.event === "stopped") show().catch(() => {});
    },
    onWillStopSession: () => fs.rm(file, { force: true }, () => {}),
  };
}

function debugChart(uri) {
  const folder = vscode.workspace.getWorkspaceFolder(uri);
  return vscode.debug.startDebugging(folder, {
    type: "sfcmon", request: "launch", name: path.basename(uri.fsPath), program: uri.fsPath, stopOnEntry: true,
  });
}

async function saveScript() {
  const session = vscode.debug.activeDebugSession;
  if (!session || session.type !== "sfcmon") return;
  const target = await vscode.window.showSaveDialog({ filters: { Scripts: ["script"] } });
  if (target) await session.customRequest("sfcmon/save", { path: target.fsPath });
}

/** A configuration for F5 without any. */
const configurations = {
  resolveDebugConfiguration(_folder, given) {
    const editor = vscode.window.activeTextEditor;
    if (!given.type && editor && editor.document.languageId === "sfc-chart") {
      return { type: "sfcmon", request: "launch", name: "Debug the chart", program: editor.document.fileName, stopOnEntry: true };
    }
    return given;
  },
};

// ---- tests

/** The chart of a file of tests: that of the same name beside it. */
const chartOf = (tests) => tests.replace(/\.sfctest$/, ".chart");

function taskOf(definition, folder) {
  const run = new vscode.ShellExecution(programName(), ["test", definition.chart, definition.tests]);
  const task = new vscode.Task(definition, folder, path.basename(definition.tests), "sfcmon", run, ["$sfcmon-test", "$sfcmon"]);
  task.group = vscode.TaskGroup.Test;
  return task;
}

const tasks = {
  async provideTasks() {
    const found = await vscode.workspace.findFiles("**/*.sfctest");
    return found.filter((uri) => fs.existsSync(chartOf(uri.fsPath))).map((uri) =>
      taskOf({ type: "sfcmon", chart: chartOf(uri.fsPath), tests: uri.fsPath }, vscode.workspace.getWorkspaceFolder(uri)));
  },
  resolveTask: (task) => taskOf(task.definition, task.scope),
};

function testChart(uri) {
  const tests = uri.fsPath.replace(/\.(chart|sfc)$/, ".sfctest");
  if (!fs.existsSync(tests)) {
    vscode.window.showInformationMessage(`sfcmon: there is no ${path.basename(tests)} beside the chart`);
    return;
  }
  vscode.tasks.executeTask(taskOf({ type: "sfcmon", chart: uri.fsPath, tests }, vscode.workspace.getWorkspaceFolder(uri)));
}

// ---- all of it

/** The chart that is meant: the one that a lens names, or the one that is edited. */
function meant(given) {
  if (given) return typeof given === "string" ? vscode.Uri.parse(given) : given;
  return vscode.window.activeTextEditor && vscode.window.activeTextEditor.document.uri;
}

async function activate(context) {
  const drawings = new Drawings();
  const command = (name, act) => vscode.commands.registerCommand(name, (given) => {
    const uri = meant(given);
    return uri && act(uri);
  });
  context.subscriptions.push(
    command("sfcmon.draw", (uri) => drawings.open(uri)),
    command("sfcmon.debug", debugChart),
    command("sfcmon.test", testChart),
    vscode.commands.registerCommand("sfcmon.saveScript", saveScript),
    vscode.workspace.onDidSaveTextDocument((document) => {
      if (vscode.workspace.getConfiguration("sfcmon").get("drawOnSave", true)) drawings.draw(document.uri);
    }),
    vscode.debug.registerDebugConfigurationProvider("sfcmon", configurations),
    vscode.debug.registerDebugAdapterDescriptorFactory("sfcmon", {
      createDebugAdapterDescriptor: () => new vscode.DebugAdapterExecutable(programName(), ["dap"]),
    }),
    vscode.debug.registerDebugAdapterTrackerFactory("sfcmon", { createDebugAdapterTracker: (session) => trackerOf(session, drawings) }),
    vscode.tasks.registerTaskProvider("sfcmon", tasks),
  );
  await startServer(context);
}

module.exports = { activate, deactivate() {} };
