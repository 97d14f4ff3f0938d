"""Settings as a text: what deploy/shards and deploy/forward write."""
import json


def toml_of(value):
    if isinstance(value, list):
        return "[" + ", ".join(map(toml_of, value)) + "]"
    if isinstance(value, dict):
        return "{ " + ", ".join(f"{key} = {toml_of(inner)}" for key, inner in value.items()) + " }"
    return json.dumps(value, ensure_ascii=False)


def settings_text(keys):
    """The settings of these keys, the originals and the archives last."""
    lines = [f"{key} = {toml_of(value)}" for key, value in keys.items() if key not in ("originals", "archives")]
    lines.append("originals = [\n" + "".join(f"    {toml_of(original)},\n" for original in keys["originals"]) + "]")
    for archive in keys["archives"]:
        lines += ["[[archives]]", *(f"{key} = {toml_of(value)}" for key, value in archive.items())]
    return "\n".join(lines) + "\n"
