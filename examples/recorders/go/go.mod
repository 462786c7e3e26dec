module synchrony/recorder

go 1.19
