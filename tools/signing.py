"""Signatures of files that leave the repository, by a key that the user has (`ssh-keygen -Y sign`); tools/release and tools/dossier take one."""
import subprocess

# what a signature is for: one for another purpose does not verify here
PURPOSE = "narbeddo"
VERIFIED = """ssh-keygen -Y verify -f SIGNERS -I NAME -n narbeddo -s FILE.sig < FILE, where a line of the file SIGNERS is
`NAME KEY`, with the public key that you had from the maker by another way than this file."""


def sign(key, files):
    """Signs each file with the private key in a file, or says on standard output that nothing is signed. Returns the faults."""
    if key is None:
        print("nothing is signed: --key FILE takes a private key of ssh-keygen")
        return []
    faults = []
    for file in files:
        signature = file.with_name(f"{file.name}.sig")
        signature.unlink(missing_ok=True)
        run = subprocess.run(["ssh-keygen", "-Y", "sign", "-f", key, "-n", PURPOSE, file], capture_output=True, text=True)
        if run.returncode or not signature.is_file():
            faults.append(f"{file.name} is not signed: {run.stderr.strip()}")
        else:
            print(f"{signature}")
    return faults
