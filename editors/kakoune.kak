# Kakoune with kakoune-lsp: source this file from kakrc, after kakoune-lsp.
hook global BufCreate .*\.pest %{ set-option buffer filetype pest }

hook global BufSetOption filetype=pest %{
    set-option buffer lsp_servers %{
        [pest-language-server]
        root_globs = [".git", "Cargo.toml"]
    }
    lsp-enable-window
}
