"""Faults of the crate, for tests/plant. The test files are modules of one program here, which is
linked once for each fault.
"""
import pathlib
import shutil
import sys

HERE = pathlib.Path(__file__).resolve().parent
PROGRAMS = HERE.parents[1] / "tests/dump/programs.py"
FAULTS = {"raw.rs": [
    ("if part.present == 0", "if part.len == 0"),
    ("bytes.get(part.offset..)", "bytes.get(part.offset + 1..)"),
    ("usize::from(fields.public_key.is_some()),\n            &mut len", "1,\n            &mut len"),
    ("usize::from(fields.public_key.is_some()),\n            out.as_mut_ptr(),\n            out.len(),\n            &mut len,\n        )\n    };\n    answer(status, len)\n",
     "0,\n            out.as_mut_ptr(),\n            out.len(),\n            &mut len,\n        )\n    };\n    answer(status, len)\n"),
    ("usize::from(fields.public_key.is_some()),\n            out.as_mut_ptr(),\n            out.len(),\n            &mut len,\n        )\n    };\n    answer(status, len).map",
     "0,\n            out.as_mut_ptr(),\n            out.len(),\n            &mut len,\n        )\n    };\n    answer(status, len).map"),
    ("core::ptr::write_volatile(byte, 0)", "core::ptr::write_volatile(byte, *byte)"),
    ("usize::try_from(number).unwrap_or(usize::MAX)", "usize::MAX"),
    ("usize::from(lower_case)", "usize::from(!lower_case)"),
    ("usize::from(compress)", "usize::from(!compress)"),
    ("sec1_tree_fault_at(bytes.as_ptr()", "sec1_key_fault_at(bytes.as_ptr()"),
    ("SEC1_BUFFER => Ok(len),", "SEC1_BUFFER => Ok(len + 1),"),
    ("for byte in bytes {", "for byte in bytes.iter_mut().step_by(2) {"),
    "[[sec1_private_key_read~>sec1_key_read]](bytes.as_ptr(), bytes.len(), &mut parts)",
    ("sec1_private_key_fault_at(bytes.as_ptr()", "sec1_private_key_info_fault_at(bytes.as_ptr()",
     "sec1_key_fault_at(bytes.as_ptr()"),
    "sec1_certificate_read_public_key(bytes.as_ptr(), bytes.len()[[~> - 1]],",
    ("sec1_certificate_fault_at(bytes.as_ptr()", "sec1_public_key_fault_at(bytes.as_ptr()"),
    ("label.as_ptr(),\n            label.len(),\n            room",
     "text.as_ptr(),\n            text.len(),\n            room"),
    ("usize::from(options.all),\n            0,", "0,\n            0,",
     "usize::from(options.all),\n            1,"),
    ("            options.levels,\n", "            0,\n"),
    ("            options.levels,\n            options.offset,\n",
     "            options.offset,\n            options.levels,\n"),
    ("            options.offset,\n", "            0,\n"), ("is_key == 1", "is_key == 0"),
    "is_key == 1)).map_err(|status| (status, [[len~>room.len()~>0]]))",
    ("sec1_public_key_fault_at(bytes.as_ptr()", "sec1_signature_fault_at(bytes.as_ptr()"),
    ("sec1_private_key_info_fault_at(bytes.as_ptr()", "sec1_private_key_fault_at(bytes.as_ptr()"),
    ("s.as_ptr(),\n            s.len(),", "r.as_ptr(),\n            r.len(),"),
], "error.rs": [
    ("Error::Asn1(error)\n", "{ let _ = error; Error::Crypto }\n"),
    "print_status(sec1_sys::[[SEC1_POINT_ENCODING~>SEC1_FIELD_LENGTH]], f)",
    ('"SEC1 version error"', '"SEC1 cryptographic error"'),
], "der/error.rs": [
    "(sec1_sys::SEC1_TRUNCATED, ErrorKind::[[Truncated~>Tag]])",
    ("(sec1_sys::SEC1_TAG, ErrorKind::Tag)", "(sec1_sys::SEC1_TAG, ErrorKind::Value)"),
    "(sec1_sys::SEC1_LENGTH, ErrorKind::[[Length~>Overlength]])",
    "(sec1_sys::SEC1_TRAILING_DATA, ErrorKind::[[TrailingData~>Failed]])",
    ("(sec1_sys::SEC1_VALUE, ErrorKind::Value)", "(sec1_sys::SEC1_VALUE, ErrorKind::Tag)"),
    ("(sec1_sys::SEC1_BUFFER, ErrorKind::Buffer)", "(sec1_sys::SEC1_BUFFER, ErrorKind::Length)"),
    ("return print_status(*number, f);", "return print_status(sec1_sys::SEC1_TAG, f);"),
    (".unwrap_or_default().saturating_sub(1);", ".unwrap_or_default();"),
    ("(sec1_sys::SEC1_CURVE, ErrorKind::Curve)", "(sec1_sys::SEC1_CURVE, ErrorKind::Value)"),
    ("Error { position: Length::try_from(offset).ok(), ..Error::of(status) }",
     "{ let _ = offset; Error::of(status) }"),
    ("(sec1_sys::SEC1_DEPTH, ErrorKind::Depth)", "(sec1_sys::SEC1_DEPTH, ErrorKind::Value)"),
    "(sec1_sys::SEC1_OVERLENGTH, ErrorKind::[[Overlength~>Value]])",
    "(sec1_sys::SEC1_OTHER_CURVE, ErrorKind::[[OtherCurve~>Curve]])",
    ("(sec1_sys::SEC1_PEM, ErrorKind::Pem)", "(sec1_sys::SEC1_PEM, ErrorKind::Value)"),
], "der.rs": [
    ("start.saturating_add(more)", "start.saturating_add(more).max(9)"),
    ("buf.get_mut(start..)", "buf.get_mut(0..)"), ("*reader = ahead;", ""),
    ("let mut ahead = reader.clone();\n        let header = Header::decode(&mut ahead)?;\n",
     "let mut ahead = reader.clone();\n        let header = Header::decode(reader)?;\n        ahead.read_slice(2_usize.try_into()?)?;\n"),
    ("writer.write(SecretDocument::encode_msg(self)?.as_bytes())", "{ let _ = writer; Ok(()) }"),
    ("Length(0x0FFF_FFFF)", "Length(0x0FFF_FFFE)"),
    ("        self?.plus(other)", "        other.plus(Length(self?.0 / 2))"),
    ("Length(self.0.saturating_add(other.0))", "Length(self.0.wrapping_add(other.0))"),
    ("Length(self.0.saturating_sub(other.0))", "Length(self.0.wrapping_sub(other.0))"),
    ("self.0.checked_sub(other.0).map(Length)", "other.0.checked_sub(self.0).map(Length)"),
], "der/asn1.rs": [
    ("raw::identifier_check(content).map_err(Error::of)?;", "raw::identifier_check(content).ok();"),
    ('write!(f, "ObjectIdentifier({self})")', 'write!(f, "{self}")'),
], "der/document.rs": [
    ("        self.bytes.zeroize();\n    }", "    }"),
    ("mode(&mut options, 0o600)", "mode(&mut options, 0o644)"),
    ("Length::try_from(raw::document_len(&document.bytes).map_err(Error::of)?)",
     "Length::try_from(document.bytes.len())"),
    (".truncate(true)", ".truncate(false)"),
    ("options.open(path)?.write_all(bytes)?", "{ options.open(path)?.write(bytes)?; }"),
    ("document.fill(&mut file, LONGEST_HEADER)?;", "document.fill(&mut file, 5)?;"),
    'f.debug_struct("SecretDocument")[[~>.field("bytes", &self.bytes)]]',
    "write_file(path, [[self.to_pem(label, line_ending)?.as_bytes()~>&self.bytes]])",
    ("Zeroizing::new(self.bytes.clone())", "Zeroizing::new(Vec::new())"),
    ("        self.bytes.zeroize();\n        self.bytes = longer;", "        self.bytes = longer;"),
    ("document.fill(&mut file, more.saturating_add(1))?;", "document.fill(&mut file, more)?;"),
    ("octets <= 4", "octets <= 3"), ("len <= 0x0FFF_FFFF", "len <= 0x00FF_FFFF"),
    ("n << 8 | usize::from(*byte)", "n << 7 | usize::from(*byte)"),
], "private_key.rs": [
    ("raw::part(bytes, parts.public_key)", "raw::part(bytes, parts.private_key)"),
    ('.field("parameters"', '.field("private_key", &self.private_key).field("parameters"'),
    ("public_key: self.public_key,", "public_key: None,"),
    ("Some(content) => Some(ObjectIdentifier::of_content(content)?.into()),", "Some(_) => None,"),
    ("let curve = self.parameters.and_then(EcParameters::named_curve);",
     "let curve: Option<ObjectIdentifier> = None;"),
    "Some([[error) => Err(error~>_) => Err(der::Error::of_kind(ErrorKind::Tag)]].into()),",
    ("(content.len() < len)", "(content.len() != len)"), ("len @ 0x80..=0xFF", "len"),
    ("a @ 1..=0xFF", "a"),
    ("ErrorKind::Truncated, Length::ONE", "ErrorKind::Truncated, Length::ZERO"),
    "[] => return Some(der::Error::new(ErrorKind::[[Truncated~>Tag]]",
    ("places.map_err(|(status, offset)| der::Error::at(status, offset))",
     "places.map_err(|(status, _)| der::Error::of(status))"),
    ("container_check(bytes).map_err(|(status, offset)| der::Error::at(status, offset))",
     "container_check(bytes).map_err(|(status, _)| der::Error::of(status))"),
    "writer.write([[Element::read(document.as_bytes())?.0.content~>document.as_bytes]]())",
    ("content_len_of(self.len()?)", "self.len()"),
    "Self::of_element([[header.element(reader~>reader.read_slice(header.length()]])?)",
    "Self::of_parts(bytes, raw::[[key_read_at~>private_key_read]](bytes))",
    "Self::of_parts(bytes, raw::[[private_key_read~>key_read_at]](bytes))",
    "(pem::CONTAINER, bytes) => Self::[[from_pkcs8_der~>from_der_or_pkcs8]](bytes)",
    ("(_, bytes) => Self::from_der(bytes)", "(_, bytes) => Self::from_der_or_pkcs8(bytes)"),
    "SecretDocument::encode_msg(self)?.to_pem([[Self::PEM_LABEL~>pem::CONTAINER]]",
    ("self.to_pkcs8_der()?.to_pem(pem::CONTAINER", "self.to_pkcs8_der()?.to_pem(Self::PEM_LABEL"),
    ("#[derive(Clone)]",
     "impl Clone for EcPrivateKey<'_> {\n    fn clone(&self) -> Self {\n        EcPrivateKey { private_key: self.private_key, parameters: None, public_key: self.public_key }\n    }\n}\n"),
    ("raw::container_check(bytes).map_err(|(status, offset)| der::Error::at(status, offset))?;",
     ""),
], "der/element.rs": [
    ("Ok((Element { tag, content }, rest))", "Ok((Element { tag, content: rest }, content))"),
    ('.field("tag", &self.tag)', '.field("tag", &self.tag).field("content", &self.content)'),
], "curve.rs": [
    ("small(field_len)?", "small(field_len)?.min(32)"),
    (".saturating_sub(1);", ".saturating_sub(0);"),
    ("        curve.identifier\n", "        { let _ = curve; crate::ALGORITHM_OID }\n"),
    ("#[derive(Clone, Copy, Eq, Hash, PartialEq)]",
     "impl PartialEq for Curve {\n    fn eq(&self, other: &Self) -> bool {\n        self.field_len() == other.field_len()\n    }\n}\n#[derive(Clone, Copy)]"),
], "point.rs": [
    ("if bool::from(choice) { *b } else { *a }", "if bool::from(choice) { *a } else { *b }"),
    ("        *self = Self::identity();\n", ""),
    ("Self::of_coordinates(x, y, false)", "Self::of_coordinates(y, x, false)"),
    ("if y_is_odd { Tag::CompressedOddY } else { Tag::CompressedEvenY }", "Tag::CompressedOddY"),
    ("y_is_odd: tag == Tag::CompressedOddY", "y_is_odd: tag != Tag::CompressedOddY"),
    ("(Tag::Compact, None) => Coordinates::Compact { x },", ""),
    'write!(f, "EncodedPoint({:?})", self.[[coordinates()~>tag]])',
    ("self.tag.is_compressed()", "self.tag.is_compressed() || self.tag.is_compact()"),
], "point/encoding.rs": [
    ("self.as_bytes().hash(state)", "(self as *const Self).hash(state)"),
    ("write_hex(true, f)", "write_hex(false, f)"),
    ("bytes: Room::<Size>::default(), len: 1", "bytes: Room::<Size>::default(), len: 2"),
    ("let y_is_odd = self.y()?.last()? % 2 == 1;", "let y_is_odd = self.y()?.first()? % 2 == 1;"),
    "false => sec1_sys::[[SEC1_POINT_COMPRESSED_EVEN~>SEC1_POINT_COMPRESSED_ODD]],",
    ("u8::try_from(Size::CompressedPointSize::USIZE)", "u8::try_from(Size::USIZE)"),
    "self.[[after_tag()?~>bytes]].get(..Size::USIZE)?.try_into().ok(),",
    ("            | sec1_sys::SEC1_POINT_HYBRID_EVEN\n", ""),
    ("self.after_tag()?.get(Size::USIZE..)?.try_into().ok()\n", "self.x()\n"),
    ("sec1_sys::SEC1_POINT_IDENTITY => None,", "sec1_sys::SEC1_POINT_COMPACT => None,"),
    ("Self::written(|out| raw::point_to_hybrid(self.as_bytes(), Size::USIZE, out))", "Ok(self)"),
    ("self.as_bytes() == other.as_bytes()", "self.as_bytes().len() == other.as_bytes().len()"),
    ("self.as_bytes().cmp(other.as_bytes())", "other.as_bytes().cmp(self.as_bytes())"),
], "point/hybrid.rs": [
    ("y_is_odd: false })", "y_is_odd: true })"),
    ("_ => Err(Error::PointEncoding)", "_ => Ok(HybridPoint { encoding, y_is_odd: false })"),
    ('field("x", &self.x()).field("y", &self.y())', 'field("x", &self.y()).field("y", &self.x())'),
    "        self.as_bytes().[[~>get(1..).unwrap_or_default().]]into()",
    ("        point.uncompress()", "        point.compress()"),
], "point/tag.rs": [
    ("raw::point_len(byte, 1).map_err(|_| Error::PointEncoding)?;\n        Self::of_number(byte)",
     "raw::point_len(byte, 1).map_err(|_| Error::PointEncoding)?;\n        Self::of_number(byte.min(5))"),
    ("saturating_mul(coordinates)", "saturating_mul(1)"),
    ("len.saturating_sub(1)", "len.saturating_sub(2)"),
], "der/header.rs": [
    ("Integer 0x02", "Integer 0x0B"), ("BitString 0x03", "BitString 0x23"),
    ("OctetString 0x04", "OctetString 0x24"), ("ObjectIdentifier 0x06", "ObjectIdentifier 0x0D"),
    ("Sequence 0x30", "Sequence 0x33"),
    ("raw::element_len(byte, &[]).map_err(Error::of)?;", "raw::element_len(byte, &[]).ok();"),
    ("end.checked_sub(self.encoded_len.try_into()?)", "end.checked_sub(2)"),
    ("let rest = unread(reader)?;", "let rest = reader.input();"),
    ("..0x80 => 2,\n        0x80..0x100", "..0x81 => 2,\n        0x81..0x100"),
    "0x1_0000..[[0x100_0000 => 5,\n        0x100_0000~>0x101_0000 => 5,\n        0x101_0000]]..",
    ("writer.write_byte(0x80 | u8", "writer.write_byte(u8"),
    ("self.0 & 0x20 != 0", "self.0 & 0x10 != 0"), ("self.0 >> 6 == 3", "self.0 >> 7 == 1"),
    ("Utf8String 0x0C", "Utf8String 0x0D"), ("self.0 & 0x1F)", "self.0 & 0x0F)"),
    ("match self == expected", "match self <= expected"),
], "der/reader.rs": [
    ("self.len.saturating_sub(self.position)", "self.len"),
    ("self.position.saturating_add(len)", "len"),
    ("self.input.get(start..)", "self.input.get(start.min(2)..)"),
    ("match self.is_finished()", "match !self.is_finished()"),
    "Error::new(ErrorKind::TrailingData, self.[[position~>input_len]]())",
    "next.ok_or(Error::of_kind(ErrorKind::[[Truncated~>Buffer]]))",
    ("kind.at(self.position())\n", "kind.into()\n"),
    ("self.clone().read_byte().ok()", "self.input().first().copied()"),
    ("ErrorKind::Truncated.at(self.position())", "ErrorKind::Truncated.at(Length::ZERO)"),
    "        [[content.finish()?;\n        ~>]]self.read_slice(len)?;",
    ("header.tag().assert_eq(Tag::Sequence).map_err(|_| self.error(ErrorKind::Tag))?;", ""),
], "der/writer.rs": [
    ("self.position = end;", ""),
    ("self.position = self.position.saturating_add(written);", "self.position = written;"),
    ("self.bytes.get_mut(self.position..end)", "self.bytes.get_mut(..slice.len())"),
    "let room = [[self.bytes.get_mut(self.position..).unwrap_or_default()~>&mut self.bytes[..]]];",
    ("self.write(&[byte])", "self.write(&[byte, byte])"),
], "der/value.rs": [
    ("const TAG: Tag = Tag::Sequence;", "const TAG: Tag = Tag::OctetString;"),
    ("if header.tag() != Self::TAG {", "if false {"), ("        content.finish()?;\n", ""),
    ("        reader.finish()?;\n", ""),
    ("let mut content = reader.to_content(header.length())?;", "let mut content = reader.clone();"),
    "        self.header()?.encode(&mut writer)?;[[\n        self.encode_value(&mut writer)?;~>]]",
], "der/asn1/any.rs": [
    ("raw::document_len(bytes).map_err(Error::of)?;", ""),
    ("raw::element_len(tag.into(), bytes).map_err(Error::of)?;", ""),
    ("_ => Err(Error::of_kind(ErrorKind::Tag)),", "_ => ObjectIdentifier::from_bytes(any.value),"),
    ("value: identifier.as_bytes()", "value: &identifier.as_bytes()[1..]"),
    "ObjectIdentifier::[[from_bytes~>of_content]](content).map($read)",
    ('.field("tag", &self.tag)', '.field("value", &self.value)'),
    ("if !T::can_decode(self.tag)", "if false"),
], "subtle.rs": [
    ("choice.0 == 1", "choice.0 == 0"), ("Choice(number & 1)", "Choice(u8::from(number == 1))"),
    ("Choice(self.0 ^ 1)", "Choice(self.0)"),
    ("BitOr bitor BitOrAssign bitor_assign |", "BitOr bitor BitOrAssign bitor_assign &"),
    ("*self = *self $symbol other;", "*self = other;"), ("!(*self ^ *other)", "*self ^ *other"),
    "*self = Self::conditional_select([[self, other~>other, self]], choice);",
    ("b.conditional_assign(&before, choice);", "let _ = before;"),
], "consts.rs": [
    ("Result<&[T; $size], TryFromSliceError> {\n                slice.try_into()",
     "Result<&[T; $size], TryFromSliceError> {\n                slice.get(..slice.len().min($size)).unwrap_or(slice).try_into()"),
    ("Result<&mut [T; $size], TryFromSliceError> {\n                slice.try_into()",
     "Result<&mut [T; $size], TryFromSliceError> {\n                slice.get_mut(..$size).unwrap_or_default().try_into()"),
], "consts/array.rs": [
    ("self.as_slice() == other.as_slice()", "self.len() == other.len()"),
    ("self.as_slice() == other\n", "self.len() == other.len()\n"),
    ("self == other.as_slice()", "self.len() == other.len()"),
    ("self.as_slice().cmp(other.as_slice())", "other.as_slice().cmp(self.as_slice())"),
    "[[self.as_slice().partial_cmp(other~>other.as_slice().partial_cmp(self]].as_slice())",
    ("self.as_slice().hash(state)", "self.len().hash(state)"),
    ('debug_tuple("Array")', 'debug_tuple("Bytes")'),
    "            *place = iter.next().[[ok_or(TryFromIteratorError)?~>unwrap_or(first)]];",
    ("Some(_) => Err(TryFromIteratorError)", "Some(_) => Ok(array)"), ("{byte:02x}", "{byte:x}"),
    ("{byte:02X}", "{byte:02x}"),
], "der/asn1/arcs.rs": [
    ("(first < 2 && second > 39)", "(first < 2 && second > 40)"), ("first > 2 ||", "first > 3 ||"),
    ("(digits > 0 && number == 0)", "false"),
    ("return if digits > 0 { Some((number, Some(after))) } else { None };",
     "return Some((number, Some(after)));"),
    ("if digits > 0 { Some((number, None)) } else { None }", "Some((number, None))"),
    ("let mut shift: u32 = 28;", "let mut shift: u32 = 21;"), ("*byte |= 0x80;", ""),
    ("(number / 40).min(2)", "(number / 40).min(3)"), ("if *byte < 0x80 {", "if *byte <= 0x80 {"),
    ("first > 2 || (first < 2 && second > 39)", "first > 2"),
    ("arcs.try_fold(content, push)",
     "Some(arcs.filter_map(|arc| push(content, arc)).last().unwrap_or(content))"),
], "der/asn1/strings.rs": [
    ("last.trailing_zeros() >= unused_bits.into()", "last.trailing_zeros() > 0"),
    ("1..8 =>", "1..9 =>"), ("(self.unused_bits == 0).then_some(self.bytes)", "Some(self.bytes)"),
    ("writer.write_byte(self.unused_bits)?;", "writer.write_byte(0)?;"),
    ("Length::of_content(bytes.len().saturating_add(1))?;", "Length::of_content(bytes.len())?;"),
    ("Length::of_content(content.len())?;", ""),
    'f.debug_struct("OctetStringRef")[[~>.field("bytes", &self.as_bytes())]]',
    'f.debug_struct("BitStringRef")[[~>.field("bytes", &self.bytes)]]',
    ("saturating_mul(8).saturating_sub(self.unused_bits.into())", "saturating_mul(8)"),
    ("self.unused_bits != 0", "self.unused_bits > 1"),
], "lib.rs": [
    ('new_unwrap("1.2.840.10045.2.1")', 'new_unwrap("1.2.840.10045.2.2")'),
], "certificate.rs": [
    ("Error::at(status, offset)", "{ let _ = offset; Error::of(status) }"),
    ("    info.ok_or(", "    let _ = info;\n    Some(bytes).ok_or("),
], "picture.rs": [
    *[(f".saturating_mul(2).saturating_add(2){end}", f"{it}{end}")
      for it in (".saturating_add(2)", ".saturating_mul(2).saturating_add(1)")
      for end in ("]", ".saturating_add(len)]")],
    ("SEC1_LINE_ROW)", "SEC1_LINE_HEADING)"), ("SEC1_LINE_MARK;", "SEC1_LINE_ROW;"),
    ("of.hidden == 1", "of.hidden == 0"),
    ("header_len: of.header_len", "header_len: of.content_len"),
    ("depth: of.depth", "depth: of.offset"),
    ("self.plain.as_ref().unwrap_or(&self.text)", "&self.text"),
    ("lines.truncate(found.unwrap_or_default());", "let _ = found;\n    lines.truncate(1);"),
    ("    raw::wipe(&mut room);\n    lines", "    lines"), (".saturating_add(len)]", "]"),
    "DrawOptions { all[[~>: false]], ..DrawOptions::default() })\n}",
    ("match options == DrawOptions::default() {", "match options.all == false {"),
    ("drawn(input, DrawOptions::default());", "drawn(input, options);"),
    ("        raw::wipe(&mut room);\n", "", "        raw::wipe(&mut room[..len]);\n"),
    "Err((_, wanted)) if wanted > len => len = wanted[[~> + 1]],",
    ("if wanted > len =>", "if wanted > len && len > 0 =>", "if wanted > len && wanted < 4096 =>"),
    ("matches!(drawn, Ok((_, true)))", "drawn.is_ok()", "matches!(drawn, Ok((_, false)))"),
    "String::from_utf8(text).unwrap_or_default()[[~>.trim_end().into()]]",
    ("#[derive(Clone, Debug, Eq, PartialEq)]\npub struct Picture {",
     "impl PartialEq for Picture {\n    fn eq(&self, other: &Self) -> bool {\n        self.text.len() == other.text.len()\n    }\n}\n#[derive(Clone, Debug)]\npub struct Picture {"),
], "pem.rs": [
    ("text.len().saturating_mul(2)", "text.len()"), ("chain(line).min()", "chain(line).max()"),
    ("Some(line).filter(|line| *line > 0)", "Some(line)"),
    ("SEC1_PEM => line,", "SEC1_PEM => line.min(0),"),
    ('LineEnding::CR => "\\r"', 'LineEnding::CR => "\\n"'),
    ('LineEnding::CRLF => "\\r\\n"', 'LineEnding::CRLF => "\\n"'), ("cfg!(windows)", "cfg!(unix)"),
    ("match actual == Self::PEM_LABEL", "match actual.ends_with(Self::PEM_LABEL)",
     "match Self::PEM_LABEL.starts_with(actual)"),
], "pem/text.rs": [
    ("split(['\\r', '\\n'])", "split('\\n')"),
    ("const LINE: usize = 48;", "const LINE: usize = 57;"), (".filter(|_| at <= three.len())", ""),
    ('xyz0123456789+/"', 'xyz0123456789-_"'),
    ('end(&mut text, "END");', 'end(&mut text, "BEGIN");'),
    ("let mut room = Zeroizing::new(Vec::new());", "let mut room: Vec<u8> = Vec::new();"),
    ("text.try_reserve_exact(len)", "text.try_reserve_exact(len / 2)"),
    ("longer.extend_from_slice(bytes);", ""),
    ("        error.into_bytes().zeroize();\n", "        drop(error);\n"),
], "zeroize.rs": [
    ("core::mem::take(self).into_bytes().zeroize();", "self.clear();"),
    ("self.resize(capacity, 0);", "let _ = capacity;"),
    *[(f"fn {it}(&mut self) {{\n        self.0.zeroize();", f"fn {it}(&mut self) {{")
      for it in ("drop", "zeroize")],
    ("        self.clear();", ""),
], "public_key.rs": [
    ("&[pem::PUBLIC_KEY]", '&["EC PRIVATE KEY", pem::PUBLIC_KEY]'),
    ("pem::encode(pem::PUBLIC_KEY", "pem::encode(pem::CONTAINER"),
    ("parts.public_key).map_err", "parts.curve).map_err"),
    "true => [[Error::PointEncoding~>error.into()]],\n        false => error",
    ("field_len() == Size::USIZE", "field_len() <= Size::USIZE"),
], "traits.rs": [
    ("SecretDocument::of_pem(s, EcPrivateKey::PEM_LABEL)?", "SecretDocument::from_pem(s)?.1"),
], "../examples/view.rs": [
    "sec1::draw(&fs::read(path)[[?, all~>?, false~>?[..0], all~>.unwrap_or_default(), all]])",
    ("picture.text.as_bytes()", "picture.text.trim_end().as_bytes()"),
    ("Ok(picture.has_key)", "Ok(true)"),
    ('partition(|word| word == "--all")', 'partition(|word| word.starts_with("--"))'),
    ("skip(1)", "skip(2)"), ("if paths.is_empty() {", "if false {"),
    ('eprintln!("usage: view [--all] FILE..");', ""),
    ("return ExitCode::from(2);", "return ExitCode::from(1);"),
    ("if paths.len() > 1 {", "if paths.len() > 2 {", "if paths.len() > 0 {"),
    ('println!("{path}:")', 'println!("{path}")'), ("!options.is_empty()", "options.is_empty()"),
    ("status = status.max(u8::from(!has_key))", "status = u8::from(!has_key)"),
    ("status.max(u8::from(!has_key))", "status.max(u8::from(has_key))"),
    '[[eprintln!("view: {path}~>println!("view: {path}~>eprintln!("view]]: {error}")',
    ("status = 2;", "status = 1;", "return ExitCode::from(2);"),
    ("ExitCode::from(status)", "ExitCode::SUCCESS"),
], "der/optional.rs": [
    ("tag == T::TAG", "tag >= T::TAG"),
    "None => [[Ok(None~>T::from_der(bytes).map(Some]]),\n            Some(tag)",
    ("reader.is_finished() || ", ""),
    ("Some(value) => value.encode_to_slice(buf)", "Some(_) => Ok(&[])"),
], "der/asn1/integer.rs": [
    ("[0x80..=0xFF, ..] | ", ""), ("[0, ..0x80, ..]", "[0, 0, ..]"),
    ("Some(..0x80) => rest = after,", "Some(..0x81) => rest = after,"),
    ("number.try_into().map_err(|_| value)", "Ok(number as $name)"),
], "parameters.rs": [
    ("#[derive(Clone, Copy, Debug, Eq, PartialEq)]",
     "impl Eq for EcParameters {}\nimpl PartialEq for EcParameters {\n    fn eq(&self, _: &Self) -> bool {\n        true\n    }\n}\n#[derive(Clone, Copy, Debug)]"),
], "written.rs": [
    ("buf.get(..len).ok_or(", "buf.get(1..len).ok_or("),
], "signature.rs": [
    ("raw::part(bytes, parts.s)", "raw::part(bytes, parts.r)"),
    ("Error::at(status, at)", "{ let _ = at; Error::of(status) }"),
    ("while let [0, rest @ ..] = bytes", "if let [0, rest @ ..] = bytes"),
    (" && number(self.s) == number(other.s)", ""),
]}

UNREADABLE = "could not compile"
# A test file that has an allocator of its own, and so is a program of its own.
ALONE = "wiping"
# What takes long is run where the other tests pass, and what takes longest where all else passes.
LONG = ["openssl", "against_library"]
LONGEST = ["agrees_on_points", "agrees_on_keys", "agrees_on_identifiers",
           "files_are_read_as_their_headers"]
BUILD = "env CARGO_TARGET_DIR=target CARGO_PROFILE_DEV_DEBUG=0 cargo --offline".split()
CARGO = ["-p", "bridgeacacia-sec1", "--features", "std,pem"]


def path(file):
    """Returns the file of a fault in a copy."""
    return f"sec1/src/{file}"


def test(name, *words):
    """Returns the command that runs the tests of a file."""
    return [*BUILD, "test", *CARGO, "--test", name, "--", "--test-threads=1", *words]


def copy(folder):
    """Copies the crates, with files in place of links, which lead to others of the repository."""
    shutil.copytree(HERE, folder, ignore=shutil.ignore_patterns("target"), dirs_exist_ok=True)
    tests = folder / "sec1/tests"
    names = sorted(it.stem for it in tests.glob("*.rs") if it.stem != ALONE)
    modules = [f'#[path = "{it}.rs"]\nmod {it};\n' for it in names]
    (tests / "all.rs").write_text("".join(modules))
    return folder


def commands(_, file=""):
    """Returns what has to end well: of a fault in the example what is drawn with it first, which is
    compared with what a second reader draws."""
    draws = [[*BUILD, "build", *CARGO, "--example", "view"],
             [sys.executable, "-B", PROGRAMS, "--several", "target/debug/examples/view"]]
    skipped = [word for it in LONG + LONGEST for word in ("--skip", it)]
    tests = [test("all", *skipped), test("all", *LONG), test(ALONE)]
    both = draws + tests if "examples" in file else tests + draws
    # The last reads documents of files.
    longest = LONGEST[::-1] if "document" in file else LONGEST
    return both + [test("all", it) for it in longest]
