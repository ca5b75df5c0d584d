//! The headers that are read: made up, alike in names, shapes and lengths to those of a language
//! model. The same input is the same bytes each time.

/// What a header holds.
#[derive(Clone, Copy, Default)]
pub struct Plan {
    pub tokens: u64,
    /// Whether each token has a score and a type.
    pub scored: bool,
    pub merges: u64,
    /// How many scores stand in an array without tokens.
    pub scores: u64,
    /// How many lists of two numbers stand in one list, and in a third and a fourth. The original
    /// reads no such header.
    pub lists: u64,
    pub tensors: u64,
    /// How many bytes of it are at hand, where it is cut.
    pub cut: Option<usize>,
}

impl Plan {
    /// An input by its parts, as in `tokens=128000,scored,merges=280000,tensors=291,cut=65536`.
    pub fn named(name: &str) -> Plan {
        let mut plan = Plan::default();
        for part in name.split(',') {
            let (word, count) = part.split_once('=').unwrap_or((part, "0"));
            let count: u64 = count.parse().expect("a count");
            match word {
                "tokens" => plan.tokens = count,
                "scored" => plan.scored = true,
                "merges" => plan.merges = count,
                "scores" => plan.scores = count,
                "lists" => plan.lists = count,
                "tensors" => plan.tensors = count,
                "cut" => plan.cut = Some(count as usize),
                _ => panic!("no such part of an input: {word}"),
            }
        }
        plan
    }

    pub fn bytes(self) -> Vec<u8> {
        let mut made = Made { bytes: b"GGUF".to_vec(), seed: 0x9E37_79B9_7F4A_7C15, entries: 0 };
        made.u32(3);
        made.u64(self.tensors);
        let count = made.bytes.len();
        made.u64(0);
        made.entries(self);
        made.bytes[count..count + 8].copy_from_slice(&made.entries.to_le_bytes());
        made.tensors(self.tensors);
        made.bytes.truncate(self.cut.unwrap_or(usize::MAX));
        made.bytes
    }
}

const U32: u32 = 4;
const I32: u32 = 5;
const F32: u32 = 6;
const BOOL: u32 = 7;
const TEXT: u32 = 8;
const ARRAY: u32 = 9;

const TEMPLATE: &str = "{% for message in messages %}\
    {{ '<|' + message['role'] + '|>\\n' + message['content'] | trim + '<|end|>\\n' }}\
    {% endfor %}{% if add_generation_prompt %}{{ '<|assistant|>\\n' }}{% endif %}";

struct Made {
    bytes: Vec<u8>,
    seed: u64,
    entries: u64,
}

impl Made {
    fn u32(&mut self, n: u32) {
        self.bytes.extend_from_slice(&n.to_le_bytes());
    }

    fn u64(&mut self, n: u64) {
        self.bytes.extend_from_slice(&n.to_le_bytes());
    }

    fn text(&mut self, text: &[u8]) {
        self.u64(text.len() as u64);
        self.bytes.extend_from_slice(text);
    }

    fn key(&mut self, key: &str, kind: u32) {
        self.entries += 1;
        self.text(key.as_bytes());
        self.u32(kind);
    }

    fn number(&mut self, key: &str, n: u32) {
        self.key(key, U32);
        self.u32(n);
    }

    fn float(&mut self, key: &str, x: f32) {
        self.key(key, F32);
        self.u32(x.to_bits());
    }

    fn flag(&mut self, key: &str, b: bool) {
        self.key(key, BOOL);
        self.bytes.push(b.into());
    }

    fn string(&mut self, key: &str, text: &str) {
        self.key(key, TEXT);
        self.text(text.as_bytes());
    }

    fn array(&mut self, key: &str, item: u32, count: u64) {
        self.key(key, ARRAY);
        self.u32(item);
        self.u64(count);
    }

    /// A number below n, by xorshift.
    fn below(&mut self, n: u64) -> u64 {
        self.seed ^= self.seed << 13;
        self.seed ^= self.seed >> 7;
        self.seed ^= self.seed << 17;
        (self.seed >> 33) % n
    }

    /// Letters of a token; half of the tokens begin a word, which is marked by a character of three
    /// bytes.
    fn piece(&mut self, into: &mut Vec<u8>) {
        if self.below(2) == 0 {
            into.extend_from_slice("▁".as_bytes());
        }
        for _ in 0..1 + self.below(9) {
            into.push(b'a' + self.below(26) as u8);
        }
    }

    fn scores(&mut self, count: u64) {
        self.array("tokenizer.ggml.scores", F32, count);
        (0..count).for_each(|i| self.u32((-(i as f32)).to_bits()));
    }

    fn vocabulary(&mut self, plan: Plan) {
        let mut text = vec![];
        self.array("tokenizer.ggml.tokens", TEXT, plan.tokens);
        for _ in 0..plan.tokens {
            text.clear();
            self.piece(&mut text);
            self.text(&text);
        }
        if plan.scored {
            self.scores(plan.tokens);
            self.array("tokenizer.ggml.token_type", I32, plan.tokens);
            (0..plan.tokens).for_each(|i| self.u32(if i < 3 { 3 } else { 1 }));
        }
        if plan.merges > 0 {
            self.array("tokenizer.ggml.merges", TEXT, plan.merges);
            for _ in 0..plan.merges {
                text.clear();
                self.piece(&mut text);
                text.push(b' ');
                self.piece(&mut text);
                self.text(&text);
            }
        }
    }

    /// A list in a list in a list of so many lists of two numbers.
    fn lists(&mut self, count: u64) {
        self.array("vision.tiles", ARRAY, 1);
        for (item, count) in [(ARRAY, 1), (ARRAY, count)] {
            self.u32(item);
            self.u64(count);
        }
        for index in 0..count as u32 {
            self.u32(U32);
            self.u64(2);
            self.u32(index);
            self.u32(336);
        }
    }

    fn entries(&mut self, plan: Plan) {
        self.string("general.architecture", "llama");
        self.string("general.name", "A model of eight billion parameters");
        self.number("general.file_type", 15);
        self.number("general.quantization_version", 2);
        self.number("llama.vocab_size", plan.tokens as u32);
        self.number("llama.context_length", 8192);
        self.number("llama.embedding_length", 4096);
        self.number("llama.block_count", 32);
        self.number("llama.feed_forward_length", 14336);
        self.number("llama.rope.dimension_count", 128);
        self.float("llama.rope.freq_base", 500000.0);
        self.number("llama.attention.head_count", 32);
        self.number("llama.attention.head_count_kv", 8);
        self.float("llama.attention.layer_norm_rms_epsilon", 1e-5);
        if plan.lists > 0 {
            self.lists(plan.lists);
        }
        self.string("tokenizer.ggml.model", "llama");
        if plan.tokens > 0 {
            self.vocabulary(plan);
        }
        if plan.scores > 0 {
            self.scores(plan.scores);
        }
        self.number("tokenizer.ggml.bos_token_id", 1);
        self.number("tokenizer.ggml.eos_token_id", 2);
        self.number("tokenizer.ggml.unknown_token_id", 0);
        self.flag("tokenizer.ggml.add_bos_token", true);
        self.flag("tokenizer.ggml.add_eos_token", false);
        self.string("tokenizer.chat_template", TEMPLATE);
    }

    fn tensors(&mut self, count: u64) {
        let mut offset = 0;
        for index in 0..count {
            let (name, lengths, kind) = tensor(index, count);
            self.text(name.as_bytes());
            self.u32(lengths.len() as u32);
            lengths.iter().for_each(|n| self.u64(*n));
            self.u32(kind);
            self.u64(offset);
            // Bytes of 256 numbers of the three kinds in use. Every product of lengths here is a
            // multiple of 256.
            let bytes = match kind {
                0 => 1024,
                12 => 144,
                _ => 210,
            };
            offset += lengths.iter().product::<u64>() / 256 * bytes;
        }
    }
}

/// The nine tensors of a block: name, lengths (0 ends them), kind.
const BLOCK: [(&str, [u64; 2], u32); 9] = [
    ("attn_norm", [4096, 0], 0),
    ("ffn_down", [14336, 4096], 14),
    ("ffn_gate", [4096, 14336], 12),
    ("ffn_up", [4096, 14336], 12),
    ("ffn_norm", [4096, 0], 0),
    ("attn_k", [4096, 1024], 12),
    ("attn_output", [4096, 4096], 12),
    ("attn_q", [4096, 4096], 12),
    ("attn_v", [4096, 1024], 14),
];

/// The name, lengths and kind of a tensor of a model with so many.
fn tensor(index: u64, count: u64) -> (String, Vec<u64>, u32) {
    let (name, lengths, kind) = if index == 0 {
        ("token_embd.weight".into(), [4096, 128256], 12)
    } else if index + 1 == count {
        ("output.weight".into(), [4096, 128256], 14)
    } else if index + 2 == count {
        ("output_norm.weight".into(), [4096, 0], 0)
    } else {
        let (part, lengths, kind) = BLOCK[(index - 1) as usize % 9];
        (format!("blk.{}.{part}.weight", (index - 1) / 9), lengths, kind)
    };
    (name, lengths.into_iter().filter(|n| *n > 0).collect(), kind)
}
