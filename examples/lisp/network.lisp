;;;; What the client of FILE needs of a network: six functions. A text is a string whose character
;;;; codes are octets. ncp.lisp has these functions for the connections of this end, and lispm.lisp
;;;; has them for the connections of a Lisp machine.

(in-package :chaosnet)

(defgeneric connect (network server contact)
  (:documentation "A connection to CONTACT at the host SERVER, once the connection is open."))

(defgeneric room-p (conn count)
  (:documentation "May a command be sent at once, while COUNT commands wait for their replies?"))

(defgeneric send-text (conn text)
  (:documentation "Sends TEXT in one data packet, and waits for room where there is none."))

(defgeneric receive-text (conn waits)
  (:documentation "The data of the next packet, or nil. Where WAITS is true it waits for a packet.
Fails with CONNECTION-ENDED, NO-REPLY or UNEXPECTED-REPLY (a packet without data)."))

(defgeneric finish (conn)
  (:documentation "Sends an EOF, and waits until the other end has all, or has ended, too."))

(defgeneric disconnect (conn)
  (:documentation "Ends the connection at once."))
