"""Fetches Debian's packages by apt-get, without any change to the system: lists and archives lie in one folder.

The packages come from where the system's own apt finds them. A source package is unpacked from its original archive; apt-get
checks its signature and its checksum. For a package that is not there, the answer is None.
"""
import glob
import os
import re
import subprocess
import tarfile

# Where the settings of apt name the lists of its sources: a file, and a folder of files.
SETTINGS = ["apt-config", "shell", "FILE", "Dir::Etc::sourcelist/f", "FOLDER", "Dir::Etc::sourceparts/d"]


class Packages:
    """Packages under one folder; what is already there is not fetched again. With a suite, sources of that suite of Debian are found too."""

    def __init__(self, folder: str, suite: str = "") -> None:
        self.folder, self.suite = os.path.abspath(folder), suite
        self.is_ready = False

    def source(self, package: str) -> str | None:
        """The folder of a package's original source, or None if it is not available."""
        place = os.path.join(self.folder, "source", package)
        if not os.path.isdir(place):
            archive = self.archive(package)
            if archive is None:
                return None
            unpack(archive, place)
        return os.path.join(place, os.listdir(place)[0])

    def archive(self, package: str) -> str | None:
        """The file of the original archive, which is fetched first."""
        self.apt_get("archives", "source", "--download-only", package)
        found = sorted(
            file for file in glob.glob(f"{self.folder}/archives/{package}_*.orig.tar.*") if not file.endswith(".asc")
        )
        return found[-1] if found else None

    def binaries(self, packages: list[str]) -> str | None:
        """The folder under which built packages are unpacked, or None if one of them is not available."""
        place = os.path.join(self.folder, "binary")
        for package in packages:
            if not glob.glob(f"{self.folder}/debs/{package}_*.deb"):
                self.apt_get("debs", "download", package)
            found = glob.glob(f"{self.folder}/debs/{package}_*.deb")
            if not found:
                return None
            unpacked = f"{found[0]}.unpacked"  # an empty file, which is there when the archive is unpacked completely
            if not os.path.exists(unpacked):
                subprocess.run(["dpkg", "-x", found[0], place], check=True)
                with open(unpacked, "w", encoding="ascii"):
                    pass
        return place

    def apt_get(self, subfolder: str, *words: str) -> None:
        """Runs apt-get in a subfolder. The caller looks for the files, since apt-get may fail."""
        where = os.path.join(self.folder, subfolder)
        os.makedirs(where, exist_ok=True)
        options = self.options()
        if not self.is_ready:
            self.is_ready = True
            subprocess.run(["apt-get", *options, "update"], stdout=subprocess.DEVNULL, stderr=subprocess.DEVNULL)
        subprocess.run(["apt-get", *options, *words], cwd=where, stdout=subprocess.DEVNULL, stderr=subprocess.DEVNULL)

    def options(self) -> list[str]:
        """The options that make apt-get use nothing but this folder, and the system's sources."""
        for part in ("lists/partial", "cache/archives/partial", "sources"):
            os.makedirs(os.path.join(self.folder, part), exist_ok=True)
        for path in sources_of_apt():
            with open(path, encoding="utf-8") as file:
                text = with_source_packages(file.read())
            with open(os.path.join(self.folder, "sources", os.path.basename(path)), "w", encoding="utf-8") as file:
                file.write(text)
                if self.suite:
                    file.write("\n\n" + of_suite(text, self.suite))
        settings = {
            "Dir::Etc::sourcelist": "-",
            "Dir::Etc::sourceparts": f"{self.folder}/sources",
            "APT::Sandbox::User": "",
            "Dir::State::lists": f"{self.folder}/lists",
            "Dir::Cache": f"{self.folder}/cache",
        }
        return [word for key, value in settings.items() for word in ("-o", f"{key}={value}")]


def sources_of_apt() -> list[str]:
    """The files in which the system's apt finds its sources."""
    shown = subprocess.run(SETTINGS, capture_output=True, text=True, check=True).stdout
    found = dict(re.findall(r"^(FILE|FOLDER)='(.*)'$", shown, re.M))
    files = [found["FILE"], *sorted(glob.glob(found["FOLDER"] + "/*.list") + glob.glob(found["FOLDER"] + "/*.sources"))]
    return [path for path in files if os.path.isfile(path)]


def with_source_packages(text: str) -> str:
    """A list of sources, of either format, that names the source packages beside the built ones."""
    text = re.sub(r"^Types:[ \t]*deb[ \t]*$", "Types: deb deb-src", text, flags=re.M | re.I)
    return re.sub(r"^deb[ \t](.*)$", r"deb \1\ndeb-src \1", text, flags=re.M)


def unpack(archive: str, place: str) -> None:
    """Unpacks an archive into a folder, which appears only when it is complete."""
    partial = place + ".partial"
    with tarfile.open(archive) as tar:
        tar.extractall(partial, filter="data")  # type: ignore[call-arg]  # mypy knows an older tarfile
    os.rename(partial, place)


def of_suite(text: str, suite: str) -> str:
    """A list of sources with another suite in place of its own, for source packages."""
    text = re.sub(r"^(Types:).*$", r"\1 deb-src", text, flags=re.M | re.I)
    text = re.sub(r"^(Suites:).*$", rf"\1 {suite}", text, flags=re.M | re.I)
    lines = [
        re.sub(r"^deb(?:-src)?((?:[ \t]+\[[^]]*\])?[ \t]+\S+)[ \t]+\S+", rf"deb-src\1 {suite}", line)
        for line in text.split("\n")
    ]
    return "\n".join(dict.fromkeys(line for line in lines)) if "URIs:" not in text else text
