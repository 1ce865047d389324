#!/usr/bin/env python3
"""checks/lib/pipelines.py REPOSITORY RVTEST: runs engines/github/fleet.yml and engines/gitlab/.gitlab-ci.yml as their servers would.

Both files are read as YAML. Each job of theirs has a fresh clone of the repository as its working folder, with a list tests.toml
beside it, and the repository is what RVFLEET_REPOSITORY names; its scripts are run in order, and what it keeps is handed on to
the jobs behind it. The merged report must be the one that RVTEST gives for the whole list, byte for byte, and the pipeline must
be red where a job of the list fails, and where RVFLEET_REPOSITORY is not set. What this does not know in a file is refused.
"""
import os
import pathlib
import re
import shutil
import subprocess
import sys
import tempfile

import yaml

TOP = pathlib.Path(__file__).resolve().parents[2]
RUN_ID = "4711"


class Wrong(Exception):
    """What is not as it should be."""


class Pipeline:
    """One run of a file: its working folders, and what its jobs keep, by name."""

    def __init__(self, repository, work, listed, url):
        self.repository, self.work, self.listed, self.url = repository, pathlib.Path(work), listed, url
        self.kept, self.said, self.red = {}, "", []

    def folder(self):
        """A fresh clone with the list in it."""
        folder = tempfile.mkdtemp(dir=self.work)
        subprocess.run(["git", "clone", "--quiet", self.repository, folder], check=True)
        (pathlib.Path(folder) / "tests.toml").write_text(self.listed)
        return pathlib.Path(folder)

    def bash(self, script, folder, variables):
        """Whether a script ends well in the folder."""
        settings = {key: value for key, value in os.environ.items() if key not in ("RVTEST", "RVFLEET_REPOSITORY")}
        settings |= {key: str(value) for key, value in variables.items()}
        done = subprocess.run(["bash", "-eo", "pipefail", "-c", script], cwd=folder, env=settings, capture_output=True, text=True)
        self.said += done.stdout + done.stderr
        return done.returncode == 0

    def keep(self, name, folder, patterns):
        """Keeps the files of the patterns, of which each must be there."""
        for pattern in patterns:
            found = sorted(folder.glob(pattern))
            if not found:
                self.said += f"{name}: there is no {pattern}\n"
            self.kept.setdefault(name, []).extend((path.name, path.read_bytes()) for path in found)

    def hand_on(self, wanted, folder):
        for name, files in self.kept.items():
            if wanted(name):
                for file, content in files:
                    (folder / file).write_bytes(content)


def keys_known(table, *known):
    for key in table:
        if key not in known:
            raise Wrong(f"the key {key!r} is not known here: {', '.join(map(str, known))} are")


def substituted(text, values):
    """A text of GitHub's with its expressions' values."""
    def value_of(match):
        if match[1] not in values:
            raise Wrong(f"the expression {match[0]} is not known here")
        return str(values[match[1]])

    return re.sub(r"\$\{\{ *([^} ]+) *\}\}", value_of, str(text))


def github_step(pipeline, step, folder, values, variables):
    """Whether one step ends well."""
    keys_known(step, "run", "uses", "with", "if", "name", "env")
    given = {key: substituted(value, values) for key, value in step.get("with", {}).items()}
    if "run" in step:
        return pipeline.bash(substituted(step["run"], values), folder, variables)
    action = step["uses"].split("@")[0]
    if action == "actions/upload-artifact":
        pipeline.keep(given["name"], folder, given["path"].split())
    elif action == "actions/download-artifact":
        pattern = given["pattern"].replace("*", "")
        pipeline.hand_on(lambda name: name.startswith(pattern), folder)
    elif action != "actions/checkout":
        raise Wrong(f"the action {step['uses']} is not known here")
    return True


def github_job(pipeline, name, job, values, variables):
    """One job in a folder of its own: behind a step that fails, only those run that always do."""
    folder, well = pipeline.folder(), True
    if not any(step.get("uses", "").startswith("actions/checkout@") for step in job["steps"]):
        raise Wrong(f"the job {name} does not check out the repository")
    for step in job["steps"]:
        if well or step.get("if") == "always()":
            well = github_step(pipeline, step, folder, values, variables) and well
    if not well:
        pipeline.red.append(name)


def github(pipeline):
    """The workflow: a job for each value of its matrix, in the order in which they stand."""
    flow = yaml.safe_load((TOP / "engines/github/fleet.yml").read_text())
    # YAML 1.1 reads the key `on` as true.
    keys_known(flow, "name", True, "env", "jobs")
    values = {"github.run_id": RUN_ID, "vars.RVFLEET_REPOSITORY": pipeline.url}
    variables = {key: substituted(value, values) for key, value in flow["env"].items()}
    for name, job in flow["jobs"].items():
        keys_known(job, "runs-on", "strategy", "steps", "needs", "if")
        for shard in job.get("strategy", {}).get("matrix", {}).get("shard", [None]):
            github_job(pipeline, name, job, values | ({"matrix.shard": shard} if shard else {}), variables)


def gitlab_job(pipeline, name, job, before, variables):
    """One job in a folder of its own, with what those that it needs have kept. Its script is one shell's."""
    folder = pipeline.folder()
    needed = [need["job"] for need in job.get("needs", []) if need.get("artifacts")]
    pipeline.hand_on(lambda kept: kept.split()[0] in needed, folder)
    if not pipeline.bash("\n".join(before + job["script"]), folder, variables):
        pipeline.red.append(name)
    artifacts = job["artifacts"]
    paths = artifacts["paths"] + list(artifacts.get("reports", {}).values())
    pipeline.keep(f"{name} {variables.get('CI_NODE_INDEX', '')}", folder, paths)


def gitlab(pipeline):
    """The pipeline: its jobs by stages, each as often as `parallel` says."""
    flow = yaml.safe_load((TOP / "engines/gitlab/.gitlab-ci.yml").read_text())
    default, stages = flow.pop("default"), flow.pop("stages")
    keys_known(default, "image", "before_script")
    shared = {"CI_PIPELINE_ID": RUN_ID} | ({"RVFLEET_REPOSITORY": pipeline.url} if pipeline.url else {})
    for name, job in sorted(flow.items(), key=lambda it: stages.index(it[1]["stage"])):
        keys_known(job, "stage", "parallel", "retry", "script", "artifacts", "when", "needs")
        count = job.get("parallel")
        for at in range(1, (count or 1) + 1):
            node = {"CI_NODE_INDEX": at, "CI_NODE_TOTAL": count} if count else {}
            gitlab_job(pipeline, name, job, default["before_script"], shared | node)


def report_of(pipeline):
    files = [content for kept in pipeline.kept.values() for file, content in kept if file == "report.txt"]
    return files[0] if files else None


def report_alone(rvtest, repository, work, listed):
    """The report of one run on one machine."""
    folder = Pipeline(repository, work, listed, None).folder()
    subprocess.run([rvtest, "run", "tests.toml", "--quiet", "--report", "alone.txt"], cwd=folder, capture_output=True, check=False)
    return (folder / "alone.txt").read_bytes()


def check(server, what, wanted_red, repository, rvtest, listed, url):
    """Runs a server's file with a list, and compares."""
    work = tempfile.mkdtemp()
    try:
        pipeline = Pipeline(repository, work, listed, url)
        server(pipeline)
        if pipeline.red != wanted_red:
            raise Wrong(f"red are {pipeline.red}, expected {wanted_red}: {pipeline.said}")
        if url and report_of(pipeline) != report_alone(rvtest, repository, work, listed):
            raise Wrong(f"the merged report is not that of one run: {pipeline.said}")
        if not url and "set this variable" not in pipeline.said:
            raise Wrong(f"it is not said what is missing: {pipeline.said}")
    except Wrong as wrong:
        sys.exit(f"pipelines: {server.__name__}, {what}: {wrong}")
    finally:
        shutil.rmtree(work)
    print(f"pipelines: {server.__name__}, {what}: as it should be")


def main(repository, rvtest):
    listed = (TOP / "examples/fleet.toml").read_text()
    turned = listed.replace("expect_exit = 3", "expect_exit = 4")
    url = f"file://{repository}"
    for server in (github, gitlab):
        name = {github: "shard", gitlab: "shards"}[server]
        check(server, "the merged report is that of one run", [], repository, rvtest, listed, url)
        check(server, "a job that fails", ["merge"], repository, rvtest, turned, url)
        check(server, "RVFLEET_REPOSITORY is not set", [name] * 8 + ["merge"], repository, rvtest, listed, "")


main(os.path.abspath(sys.argv[1]), os.path.abspath(sys.argv[2]))
